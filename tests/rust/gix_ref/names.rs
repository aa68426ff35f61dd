//! Names, and which of them are private to a worktree. That follows git-worktree(1), section REFS: pseudo refs such as HEAD, and
//! all beneath refs/bisect, refs/worktree and refs/rewritten, are not shared; everything else beneath refs/ is.

use std::borrow::Borrow;

/// A full name. In gix-ref the borrowed form is the same bytes seen otherwise; here it stands beside them.
#[derive(PartialEq, Eq, Hash, Ord, PartialOrd)]
pub struct FullName(pub(crate) String, FullNameRef);

#[derive(PartialEq, Eq, Debug, Hash, Ord, PartialOrd)]
pub struct FullNameRef(String);

/// A full name may be asked for as a partial one.
pub type PartialNameRef = FullNameRef;

/// The categories of names that the scope has, and those that the six files name besides: names of other worktrees, which no
/// name of the scope is.
#[allow(dead_code)]
#[derive(PartialEq, Eq, Clone, Copy)]
pub enum Category<'a> {
    Tag,
    LocalBranch,
    RemoteBranch,
    Note,
    PseudoRef,
    MainPseudoRef,
    MainRef,
    LinkedPseudoRef { name: &'a str },
    LinkedRef { name: &'a str },
    Bisect,
    Rewritten,
    WorktreePrivate,
}

const PREFIXES: [(&str, Category<'static>); 7] = [
    ("refs/tags/", Category::Tag),
    ("refs/heads/", Category::LocalBranch),
    ("refs/remotes/", Category::RemoteBranch),
    ("refs/notes/", Category::Note),
    ("refs/bisect/", Category::Bisect),
    ("refs/rewritten/", Category::Rewritten),
    ("refs/worktree/", Category::WorktreePrivate),
];

impl Category<'_> {
    pub fn is_worktree_private(&self) -> bool {
        matches!(self, Category::PseudoRef | Category::Bisect | Category::Rewritten | Category::WorktreePrivate)
    }
}

impl FullName {
    pub fn new(name: &str) -> Self {
        FullName(name.to_owned(), FullNameRef(name.to_owned()))
    }

    pub fn as_bstr(&self) -> &String {
        &self.0
    }
}

impl FullNameRef {
    pub fn as_bstr(&self) -> &String {
        &self.0
    }

    pub fn as_partial_name(&self) -> &PartialNameRef {
        self
    }

    pub fn new_unchecked(name: &FullNameRef) -> &FullNameRef {
        name
    }

    pub fn category(&self) -> Option<Category<'_>> {
        if !self.0.contains('/') {
            return Some(Category::PseudoRef);
        }
        PREFIXES.iter().find(|(prefix, _)| self.0.starts_with(prefix)).map(|(_, category)| *category)
    }

    /// The category, and the name within it. The six files look at the second only for names of other worktrees, so the
    /// whole name does for it.
    pub fn category_and_short_name(&self) -> Option<(Category<'_>, &FullNameRef)> {
        self.category().map(|category| (category, self))
    }
}

impl Clone for FullName {
    fn clone(&self) -> Self {
        FullName::new(&self.0)
    }
}

impl std::fmt::Debug for FullName {
    fn fmt(&self, f: &mut std::fmt::Formatter<'_>) -> std::fmt::Result {
        self.0.fmt(f)
    }
}

impl AsRef<FullNameRef> for FullName {
    fn as_ref(&self) -> &FullNameRef {
        &self.1
    }
}

impl Borrow<FullNameRef> for FullName {
    fn borrow(&self) -> &FullNameRef {
        &self.1
    }
}

impl ToOwned for FullNameRef {
    type Owned = FullName;

    fn to_owned(&self) -> FullName {
        FullName::new(&self.0)
    }
}
