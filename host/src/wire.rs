//! What stands on a connection: first a hello, the sender's number and the link's token; then
//! frames, each of a round in one byte, a two-byte length and as many bytes. A round is an agreement
//! or an exchange, by its number.

use std::io::{Error, ErrorKind, Read, Result, Write};

/// What only the two ends of a link know.
pub type Token = [u8; 16];

#[derive(Debug, PartialEq)]
pub struct Hello {
    pub sender: usize,
    pub token: Token,
}

#[derive(Debug, PartialEq)]
pub struct Frame {
    pub round: usize,
    pub body: Vec<u8>,
}

/// The exchanges. That in which a named sender gives its message to all comes before the first, where
/// there is one.
pub const SENDERS: usize = 0;
pub const FIRST: usize = 1;
pub const SECOND: usize = 2;
pub const EXCHANGES: usize = 3;

/// There are two agreements, for the root and for the bit.
pub const AGREEMENTS: usize = 2;

fn too_large<E>(_: E) -> Error {
    Error::from(ErrorKind::InvalidInput)
}

pub fn write_hello(stream: &mut impl Write, hello: &Hello) -> Result<()> {
    let mut bytes = vec![u8::try_from(hello.sender).map_err(too_large)?];
    bytes.extend(hello.token);
    stream.write_all(&bytes)
}

pub fn read_hello(stream: &mut impl Read) -> Result<Hello> {
    let (mut sender, mut token) = ([0], [0; 16]);
    stream.read_exact(&mut sender)?;
    stream.read_exact(&mut token)?;
    Ok(Hello {
        sender: sender[0].into(),
        token,
    })
}

pub fn write_frame(stream: &mut impl Write, round: usize, body: &[u8]) -> Result<()> {
    let mut bytes = vec![u8::try_from(round).map_err(too_large)?];
    bytes.extend(u16::try_from(body.len()).map_err(too_large)?.to_be_bytes());
    bytes.extend(body);
    stream.write_all(&bytes)
}

/// A frame of no round is an error, after which nothing more is read from its sender.
pub fn read_frame(stream: &mut impl Read) -> Result<Frame> {
    let mut head = [0; 3];
    stream.read_exact(&mut head)?;
    let round = usize::from(head[0]);
    if round >= EXCHANGES.max(AGREEMENTS) {
        return Err(Error::from(ErrorKind::InvalidData));
    }
    let mut body = vec![0; u16::from_be_bytes([head[1], head[2]]).into()];
    stream.read_exact(&mut body)?;
    Ok(Frame { round, body })
}

#[cfg(test)]
mod tests {
    use super::*;
    use cipangohu::MAX_ENTRY;

    #[test]
    fn what_was_written_is_read_back() {
        let token = [7; 16];
        let mut bytes = Vec::new();
        write_hello(&mut bytes, &Hello { sender: 16, token }).unwrap();
        write_frame(&mut bytes, 0, b"").unwrap();
        write_frame(&mut bytes, 1, &[9; MAX_ENTRY]).unwrap();
        let mut rest = &bytes[..];
        assert_eq!(read_hello(&mut rest).unwrap(), Hello { sender: 16, token });
        let (first, second) = (
            read_frame(&mut rest).unwrap(),
            read_frame(&mut rest).unwrap(),
        );
        assert_eq!((first.round, first.body.len()), (0, 0));
        assert_eq!((second.round, second.body), (1, vec![9; MAX_ENTRY]));
        assert!(rest.is_empty());
    }

    #[test]
    fn bad_bytes_are_errors() {
        let bad: [&[u8]; 4] = [&[], &[0, 0], &[0, 0, 2, 5], &[3, 0, 0]];
        for mut bytes in bad {
            assert!(read_frame(&mut bytes).is_err());
        }
        assert!(read_hello(&mut &[1; 16][..]).is_err());
        assert!(write_frame(&mut Vec::new(), 0, &[0; MAX_ENTRY + 1]).is_err());
    }
}
