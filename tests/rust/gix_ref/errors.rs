//! The conversions that thiserror's `#[from]` makes in gix-ref.

use crate::file::{self, transaction};
use crate::packed;

macro_rules! from {
    ($source:ty => $error:ty, $variant:ident) => {
        impl From<$source> for $error {
            fn from(source: $source) -> Self {
                Self::$variant(source)
            }
        }
    };
}

from!(packed::buffer::open::Error => transaction::prepare::Error, Packed);
from!(packed::transaction::prepare::Error => transaction::prepare::Error, PackedTransactionPrepare);
from!(packed::find::Error => transaction::prepare::Error, PackedFind);
from!(std::io::Error => transaction::prepare::Error, Io);
from!(file::loose::reference::decode::Error => transaction::prepare::Error, ReferenceDecode);
from!(file::log::create_or_update::Error => transaction::commit::Error, CreateOrUpdateRefLog);
