//! `fedbundle canon --domain DOMAIN` in plain Rust, to measure against: it reads a bundle on standard input, and prints
//! its canonical text, its document id, and the key id of each X.509 authority. Only the domain is given as an
//! argument.
use peer::document::{read_document, Authority, Document, MAX_DOCUMENT_BYTES};
use std::error::Error;
use std::io::{Read, Write};

fn main() -> Result<(), Box<dyn Error>> {
    let domain = std::env::args().nth(1).ok_or("no domain given")?;
    let mut bytes = Vec::new();
    std::io::stdin().lock().take(MAX_DOCUMENT_BYTES as u64 + 1).read_to_end(&mut bytes)?;
    if bytes.len() > MAX_DOCUMENT_BYTES {
        return Err("too long".into());
    }
    let document = read_document(serde_json::from_slice(&bytes)?).ok_or("no bundle")?;
    std::io::stdout().lock().write_all(render(&domain, &document).as_bytes())?;
    Ok(())
}

fn render(domain: &str, document: &Document) -> String {
    let mut out = format!("{}\nid {}\n", document.text, hex::encode(document.id(domain)));
    for key in document.authorities.iter().filter_map(Authority::key_id) {
        out.push_str(&format!("key {}\n", hex::encode(key)));
    }
    out
}
