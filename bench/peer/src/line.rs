//! Receipts' lines, read by pieces if they are spelt as such a line, and otherwise through a tree; and
//! written.
use crate::document::{is_url_text, Authority, Document, Id, PublicKey, MAX_DOCUMENT_BYTES};
use crate::names::{domain_of, is_domain};
use crate::receipt::{self, Receipt};
use std::io::{self, Write};

pub fn read_line(bytes: &[u8]) -> Option<Receipt> {
    read_by_pieces(bytes).or_else(|| receipt::read_line(bytes))
}

pub fn write_line(out: &mut impl Write, receipt: &Receipt) -> io::Result<()> {
    write_form(out, receipt)?;
    out.write_all(b"\n")
}

/// The line without its end.
pub fn write_form(out: &mut impl Write, receipt: &Receipt) -> io::Result<()> {
    out.write_all(b"{\"doc\":")?;
    out.write_all(receipt.document.text.as_bytes())?;
    out.write_all(b",\"domain\":\"")?;
    out.write_all(receipt.domain.as_bytes())?;
    out.write_all(b"\",\"endpoint\":\"")?;
    out.write_all(receipt.endpoint.as_bytes())?;
    out.write_all(b"\",\"key\":\"")?;
    write_hex(out, &receipt.key)?;
    out.write_all(b"\",\"voucher\":\"")?;
    write_hex(out, &receipt.voucher)?;
    out.write_all(b"\"}")
}

pub fn write_hex(out: &mut impl Write, id: &Id) -> io::Result<()> {
    let mut text = [0; 64];
    hex::encode_to_slice(id, &mut text).map_err(|_| io::ErrorKind::InvalidData)?;
    out.write_all(&text)
}

/// What is left of a text.
pub struct Rest<'a>(pub &'a str);

impl<'a> Rest<'a> {
    pub fn after(&mut self, label: &str) -> Option<()> {
        self.0 = self.0.strip_prefix(label)?;
        Some(())
    }

    /// A string of JSON up to its quotation mark. One with escapes is left to the tree.
    pub fn string(&mut self) -> Option<&'a str> {
        let end = self.0.bytes().position(|byte| byte == b'"' || byte == b'\\' || byte < 32)?;
        let (text, rest) = self.0.split_at(end);
        self.0 = rest.strip_prefix('"')?;
        Some(text)
    }

    pub fn number(&mut self) -> Option<u64> {
        let end = self.0.bytes().position(|byte| !byte.is_ascii_digit()).unwrap_or(self.0.len());
        let (text, rest) = self.0.split_at(end);
        self.0 = rest;
        if text.len() > 1 && text.starts_with('0') {
            return None;
        }
        text.parse().ok()
    }

    /// A digest as lower-case hexadecimal digits.
    pub fn digest(&mut self) -> Option<Id> {
        let text = self.0.get(..64)?;
        if text.bytes().any(|byte| byte.is_ascii_uppercase()) {
            return None;
        }
        let mut id = [0; 32];
        hex::decode_to_slice(text, &mut id).ok()?;
        self.0 = &self.0[64..];
        Some(id)
    }

    fn string_of(&mut self, label: &str, is_right: impl Fn(&str) -> bool) -> Option<String> {
        self.after(label)?;
        Some(self.string()?).filter(|text| is_right(text)).map(str::to_owned)
    }
}

fn read_by_pieces(bytes: &[u8]) -> Option<Receipt> {
    let mut rest = Rest(std::str::from_utf8(bytes).ok()?);
    rest.after("{\"doc\":")?;
    let document = read_document(&mut rest)?;
    let domain = rest.string_of(",\"domain\":\"", is_domain)?;
    let endpoint = rest.string_of(",\"endpoint\":\"", |_| true)?;
    rest.after(",\"key\":\"")?;
    let key = rest.digest()?;
    rest.after("\",\"voucher\":\"")?;
    let voucher = rest.digest()?;
    rest.after("\"}")?;
    if !rest.0.is_empty() {
        return None;
    }
    let endpoint_domain = domain_of(&endpoint)?.to_owned();
    Some(Receipt::new(document, domain, endpoint, endpoint_domain, (key, voucher)))
}

fn read_document(rest: &mut Rest<'_>) -> Option<Document> {
    let whole = rest.0;
    rest.after("{\"keys\":[")?;
    let mut authorities = Vec::new();
    let mut last = "";
    while !rest.0.starts_with(']') {
        if !authorities.is_empty() {
            rest.after(",")?;
        }
        let before = rest.0;
        authorities.push(read_authority(rest)?);
        let text = &before[..before.len() - rest.0.len()];
        if last >= text {
            return None;
        }
        last = text;
    }
    rest.after("]")?;
    let hint = read_number(rest, ",\"spiffe_refresh_hint\":")?;
    let rank = read_number(rest, ",\"spiffe_sequence\":")?;
    rest.after("}")?;
    let text = whole[..whole.len() - rest.0.len()].to_owned();
    Some(Document { authorities, hint, rank, text }).filter(|document| document.text.len() <= MAX_DOCUMENT_BYTES)
}

fn read_number(rest: &mut Rest<'_>, label: &str) -> Option<Option<u64>> {
    match rest.after(label) {
        None => Some(None),
        Some(()) => rest.number().map(Some),
    }
}

fn read_authority(rest: &mut Rest<'_>) -> Option<Authority> {
    if rest.after("{\"crv\":\"").is_some() {
        read_ec(rest)
    } else {
        rest.after("{\"e\":\"")?;
        read_rsa(rest)
    }
}

fn is_some_text(text: &str) -> bool {
    !text.is_empty()
}

fn read_rsa(rest: &mut Rest<'_>) -> Option<Authority> {
    let e = rest.string_of("", is_url_text)?;
    if rest.after(",\"kid\":\"").is_some() {
        let kid = rest.string_of("", is_some_text)?;
        let n = rest.string_of(",\"kty\":\"RSA\",\"n\":\"", is_url_text)?;
        rest.after(",\"use\":\"jwt-svid\"}")?;
        return Some(Authority::Jwt { kid, key: PublicKey::Rsa { n, e } });
    }
    let n = rest.string_of(",\"kty\":\"RSA\",\"n\":\"", is_url_text)?;
    rest.after(",\"use\":\"x509-svid\",")?;
    let der = read_certificate(rest)?;
    rest.after("}")?;
    Some(Authority::X509 { key: PublicKey::Rsa { n, e }, der })
}

fn read_ec(rest: &mut Rest<'_>) -> Option<Authority> {
    let crv = rest.string_of("", is_some_text)?;
    if rest.after(",\"kid\":\"").is_some() {
        let kid = rest.string_of("", is_some_text)?;
        let x = rest.string_of(",\"kty\":\"EC\",\"use\":\"jwt-svid\",\"x\":\"", is_url_text)?;
        let y = rest.string_of(",\"y\":\"", is_url_text)?;
        rest.after("}")?;
        return Some(Authority::Jwt { kid, key: PublicKey::Ec { crv, x, y } });
    }
    let x = rest.string_of(",\"kty\":\"EC\",\"use\":\"x509-svid\",\"x\":\"", is_url_text)?;
    rest.after(",")?;
    let der = read_certificate(rest)?;
    let y = rest.string_of(",\"y\":\"", is_url_text)?;
    rest.after("}")?;
    Some(Authority::X509 { key: PublicKey::Ec { crv, x, y }, der })
}

/// The padded base64 of one certificate.
fn read_certificate(rest: &mut Rest<'_>) -> Option<Vec<u8>> {
    rest.after("\"x5c\":[\"")?;
    let text = rest.string()?;
    rest.after("]")?;
    if text.len() % 4 != 0 {
        return None;
    }
    base64::decode(text).ok().filter(|der| !der.is_empty())
}
