// Added beside the published files, which do not have it: the parts of resp2, and the same of resp3.
pub mod decode;
pub mod encode;
pub mod types;
pub(crate) mod utils;
