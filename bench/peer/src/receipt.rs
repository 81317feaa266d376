//! Receipts and their lines: a line is parsed, made again of what it says, and compared.
use crate::document::{read_document, take_text, Document, Id};
use crate::line::write_form;
use crate::names::{domain_of, is_domain};
use serde_json::Value;
use sha2::{Digest, Sha256};
use std::cell::OnceCell;

const MAX_LINE_BYTES: usize = 8_388_608;

/// The trust domain, the document's id and the key's id by which something is vouched for.
#[derive(Clone, PartialEq, Eq, PartialOrd, Ord)]
pub struct Triple {
    pub domain: String,
    pub document: Id,
    pub key: Id,
}

#[derive(Clone)]
pub struct Receipt {
    pub domain: String,
    pub endpoint: String,
    pub document: Document,
    pub voucher: Id,
    pub key: Id,
    id: OnceCell<Id>,
    pub need: Triple,
    pub offers: Vec<Triple>,
}

pub fn read_line(bytes: &[u8]) -> Option<Receipt> {
    if bytes.len() > MAX_LINE_BYTES {
        return None;
    }
    let Value::Object(mut members) = serde_json::from_slice(bytes).ok()? else {
        return None;
    };
    let document = read_document(members.remove("doc")?)?;
    let domain = Some(take_text(&mut members, "domain")?).filter(|text| is_domain(text))?;
    let endpoint = take_text(&mut members, "endpoint")?;
    let endpoint_domain = domain_of(&endpoint)?.to_owned();
    let key: Id = digest_of(&take_text(&mut members, "key")?)?;
    let voucher: Id = digest_of(&take_text(&mut members, "voucher")?)?;
    let line = format!(
        "{{\"doc\":{},\"domain\":\"{domain}\",\"endpoint\":\"{endpoint}\",\"key\":\"{}\",\"voucher\":\"{}\"}}",
        document.text,
        hex::encode(key),
        hex::encode(voucher),
    );
    if line.as_bytes() != bytes {
        return None;
    }
    Some(Receipt::new(document, domain, endpoint, endpoint_domain, (key, voucher)))
}

impl Receipt {
    pub fn new(
        document: Document,
        domain: String,
        endpoint: String,
        endpoint_domain: String,
        (key, voucher): (Id, Id),
    ) -> Receipt {
        let need = Triple { domain: endpoint_domain, document: voucher, key };
        let offers = offers_of(&domain, &document);
        Receipt { domain, endpoint, document, voucher, key, id: OnceCell::new(), need, offers }
    }

    /// The digest of the line, computed when it is first asked for.
    pub fn id(&self) -> &Id {
        self.id.get_or_init(|| {
            let mut hasher = Sha256::new();
            // A hasher takes all.
            let _ = write_form(&mut hasher, self);
            hasher.finalize().into()
        })
    }
}

fn digest_of(text: &str) -> Option<Id> {
    hex::decode(text).ok()?.try_into().ok()
}

/// A triple for each key of the document, in the order of the keys' ids.
pub fn offers_of(domain: &str, document: &Document) -> Vec<Triple> {
    let id = document.id(domain);
    document.keys().into_iter().map(|key| Triple { domain: domain.to_owned(), document: id, key }).collect()
}
