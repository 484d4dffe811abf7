//! Plans in words: a notation for rehearsal plans that a technician can write, its way to a
//! plan's bytes and back, and a sitting told in text or as a picture. Boxes are played by the
//! foreign implementation; nothing of the protocol stands here.

pub mod books;
pub mod causes;
pub mod draft;
pub mod explain;
pub mod input;
pub mod lines;
pub mod packet;
pub mod parse;
pub mod phrases;
pub mod picture;
pub mod recognise;
pub mod svg;
pub mod text;
pub mod view;
