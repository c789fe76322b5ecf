//! Stands in for `toml`, which config.rs names in one line. It reads JSON, so that `SimConfig::from_file`
//! and with it the private `validate` can be called.

pub fn from_str<T: serde::de::DeserializeOwned>(text: &str) -> Result<T, serde_json::Error> {
    serde_json::from_str(text)
}
