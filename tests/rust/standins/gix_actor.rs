//! Stands in for gix-actor: who commits. The scope knows committers by number, and the number's digits are the name.

#[derive(Clone, Copy)]
pub struct SignatureRef<'a> {
    pub name: &'a str,
}
