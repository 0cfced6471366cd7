//! libreader.a behind safe functions, as include/windrow_reader.h declares it; the model's answers beside its own; replies read
//! back; random definitions, dates and live tables; records as they were before texts were cleaned; seeds.

pub mod answers;
pub mod dates;
pub mod ffi;
pub mod old_records;
pub mod random;
pub mod read_back;
pub mod seeds;
pub mod texts;
