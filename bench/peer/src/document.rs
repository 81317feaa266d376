//! Bundle documents: read from a tree, made again of what they say, with their ids.
use serde_json::{Map, Value};
use sha2::{Digest, Sha256};
use std::collections::{BTreeMap, BTreeSet};

pub const MAX_DOCUMENT_BYTES: usize = 1_048_576;

/// A SHA-256 digest: the id of a document, of a key or of a receipt.
pub type Id = [u8; 32];

#[derive(Clone)]
pub enum PublicKey {
    Rsa { n: String, e: String },
    Ec { crv: String, x: String, y: String },
}

#[derive(Clone)]
pub enum Authority {
    X509 { key: PublicKey, der: Vec<u8> },
    Jwt { kid: String, key: PublicKey },
}

/// The authorities are in the order of their canonical texts.
#[derive(Clone)]
pub struct Document {
    pub authorities: Vec<Authority>,
    pub hint: Option<u64>,
    pub rank: Option<u64>,
    pub text: String,
}

impl Document {
    pub fn id(&self, domain: &str) -> Id {
        Sha256::new().chain_update(domain).chain_update("\n").chain_update(&self.text).finalize().into()
    }

    pub fn keys(&self) -> BTreeSet<Id> {
        self.authorities.iter().filter_map(Authority::key_id).collect()
    }
}

impl Authority {
    /// For an X.509 authority. One for JWTs has none.
    pub fn key_id(&self) -> Option<Id> {
        match self {
            Authority::X509 { der, .. } => Some(Sha256::digest(der).into()),
            Authority::Jwt { .. } => None,
        }
    }
}

pub fn read_document(value: Value) -> Option<Document> {
    let Value::Object(mut members) = value else {
        return None;
    };
    let Value::Array(keys) = members.remove("keys")? else {
        return None;
    };
    let hint = read_number(&members, "spiffe_refresh_hint")?;
    let rank = read_number(&members, "spiffe_sequence")?;
    let authorities: BTreeMap<String, Authority> = keys.into_iter().filter_map(read_authority).collect();
    let text = canonical_text(&authorities, hint, rank);
    let authorities = authorities.into_values().collect();
    Some(Document { authorities, hint, rank, text }).filter(|document| document.text.len() <= MAX_DOCUMENT_BYTES)
}

fn read_number(members: &Map<String, Value>, name: &str) -> Option<Option<u64>> {
    match members.get(name) {
        None | Some(Value::Null) => Some(None),
        Some(value) => value.as_u64().map(Some),
    }
}

fn canonical_text(authorities: &BTreeMap<String, Authority>, hint: Option<u64>, rank: Option<u64>) -> String {
    let mut text = String::from("{\"keys\":[");
    for (at, authority) in authorities.keys().enumerate() {
        if at > 0 {
            text.push(',');
        }
        text.push_str(authority);
    }
    text.push(']');
    for (name, number) in [("spiffe_refresh_hint", hint), ("spiffe_sequence", rank)] {
        if let Some(number) = number {
            text.push_str(&format!(",\"{name}\":{number}"));
        }
    }
    text.push('}');
    text
}

/// An authority with its canonical text. An element of no known kind is passed over.
fn read_authority(element: Value) -> Option<(String, Authority)> {
    let Value::Object(mut members) = element else {
        return None;
    };
    let kty = take_text(&mut members, "kty")?;
    let use_ = take_text(&mut members, "use")?;
    let mut kept = Map::new();
    match kty.as_str() {
        "RSA" => keep_all(&mut members, &mut kept, &["n", "e"], is_url_text)?,
        "EC" => {
            keep_all(&mut members, &mut kept, &["crv"], |text| !text.is_empty())?;
            keep_all(&mut members, &mut kept, &["x", "y"], is_url_text)?;
        }
        _ => return None,
    }
    let der = match use_.as_str() {
        "x509-svid" => {
            let texts = members.remove("x5c")?;
            let der = read_certificate(&texts)?;
            kept.insert("x5c".to_owned(), texts);
            Some(der)
        }
        "jwt-svid" => {
            keep_all(&mut members, &mut kept, &["kid"], |text| !text.is_empty())?;
            None
        }
        _ => return None,
    };
    kept.insert("kty".to_owned(), Value::String(kty));
    kept.insert("use".to_owned(), Value::String(use_));
    let text = serde_json::to_string(&kept).ok()?;
    let kid = take_text(&mut kept, "kid");
    let key = key_of(kept)?;
    let authority = match (der, kid) {
        (Some(der), _) => Authority::X509 { key, der },
        (None, kid) => Authority::Jwt { kid: kid?, key },
    };
    Some((text, authority))
}

fn read_certificate(texts: &Value) -> Option<Vec<u8>> {
    match texts.as_array()?.as_slice() {
        [text] => base64::decode(text.as_str()?).ok().filter(|der| !der.is_empty()),
        _ => None,
    }
}

fn key_of(mut kept: Map<String, Value>) -> Option<PublicKey> {
    let mut text = |name| take_text(&mut kept, name);
    match text("n") {
        Some(n) => Some(PublicKey::Rsa { n, e: text("e")? }),
        None => Some(PublicKey::Ec { crv: text("crv")?, x: text("x")?, y: text("y")? }),
    }
}

pub fn is_url_text(text: &str) -> bool {
    let is_symbol = |byte: u8| byte.is_ascii_alphanumeric() || byte == b'-' || byte == b'_';
    !text.is_empty() && text.len() % 4 != 1 && text.bytes().all(is_symbol)
}

fn keep_all(
    members: &mut Map<String, Value>,
    kept: &mut Map<String, Value>,
    names: &[&str],
    is_right: impl Fn(&str) -> bool,
) -> Option<()> {
    for name in names {
        let text = take_text(members, name).filter(|text| is_right(text))?;
        kept.insert((*name).to_owned(), Value::String(text));
    }
    Some(())
}

pub(crate) fn take_text(members: &mut Map<String, Value>, name: &str) -> Option<String> {
    match members.remove(name)? {
        Value::String(text) => Some(text),
        _ => None,
    }
}
