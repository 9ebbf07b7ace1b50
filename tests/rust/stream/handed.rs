//! What a command hands back beside its line.
use super::packed::hex;
use crate::driver::calls::{Entry, Path};

#[derive(Clone, Default, PartialEq, Eq)]
pub enum Handed {
    #[default]
    Nothing,
    /// by 20 and 21
    Path(Path),
    /// by 22
    Entry(Entry),
}

impl Handed {
    /// Names and values; elements come last, since paths differ in length.
    fn fields(&self) -> Vec<(String, String)> {
        let mut fields = Vec::new();
        let path: &[_] = match self {
            Handed::Nothing => &[],
            Handed::Path(path) => path,
            Handed::Entry(entry) => {
                let mut say = |name: &str, value: String| fields.push((name.to_string(), value));
                say("created_at", entry.created_at.to_string());
                say("last_used", entry.last_used.to_string());
                say("expires_at", entry.expires_at.to_string());
                say("path_mtu", format!("{:?}", entry.path_mtu));
                say("source", if entry.verified { "Verified" } else { "Hint" }.to_string());
                say("verified_until", entry.verified_until.to_string());
                &entry.path
            }
        };
        for (i, e) in path.iter().enumerate() {
            fields.push((format!("element {i}"), format!("{} {} {}", hex(&e.addr), e.sequence, e.timestamp)));
        }
        fields
    }

    /// The fields in which what was found is not what was expected.
    pub fn unlike(&self, found: &Handed) -> Vec<String> {
        if self == found {
            return Vec::new();
        }
        let (expected, found) = (self.fields(), found.fields());
        let mut said = Vec::new();
        for i in 0..expected.len().max(found.len()) {
            let (e, f) = (expected.get(i), found.get(i));
            if e != f {
                let (name, _) = e.or(f).expect("one of them is that long");
                let value = |field: Option<&(String, String)>| field.map_or("nothing".to_string(), |(_, value)| value.clone());
                said.push(format!("handed back, {name}: expected {}, found {}", value(e), value(f)));
            }
        }
        said
    }
}
