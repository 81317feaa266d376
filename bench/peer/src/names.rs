//! Trust domain names and SPIFFE IDs.

const MAX_DOMAIN_BYTES: usize = 255;
const MAX_ID_BYTES: usize = 2_048;

pub fn is_domain(text: &str) -> bool {
    let is_domain_byte = |byte: u8| byte.is_ascii_lowercase() || byte.is_ascii_digit() || b".-_".contains(&byte);
    !text.is_empty() && text.len() <= MAX_DOMAIN_BYTES && text.bytes().all(is_domain_byte)
}

/// The trust domain of a SPIFFE ID.
pub fn domain_of(text: &str) -> Option<&str> {
    let rest = text.strip_prefix("spiffe://")?;
    let (domain, path) = rest.split_once('/').map_or((rest, None), |(domain, path)| (domain, Some(path)));
    let is_id = text.len() <= MAX_ID_BYTES && path.map_or(true, |path| path.split('/').all(is_segment));
    Some(domain).filter(|domain| is_id && is_domain(domain))
}

fn is_segment(text: &str) -> bool {
    let is_segment_byte = |byte: u8| byte.is_ascii_alphanumeric() || b".-_".contains(&byte);
    !matches!(text, "" | "." | "..") && text.bytes().all(is_segment_byte)
}
