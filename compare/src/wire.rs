//! Records on the wire: an eight-byte header, content, padding. Two-byte and four-byte numbers are high byte first.

pub const HEADER: usize = 8;
pub const VERSION: u8 = 1;

/// Types of records. What else a type byte can hold has no name.
pub mod kind {
    pub const BEGIN: u8 = 1;
    pub const ABORT: u8 = 2;
    pub const END: u8 = 3;
    pub const PARAMS: u8 = 4;
    pub const STDIN: u8 = 5;
    pub const STDOUT: u8 = 6;
    pub const STDERR: u8 = 7;
    pub const DATA: u8 = 8;
    pub const GET_VALUES: u8 = 9;
    pub const GET_VALUES_RESULT: u8 = 10;
    pub const UNKNOWN_TYPE: u8 = 11;
}

/// The bit of a BEGIN body's flags that keeps the connection after the request; the others are ignored.
pub const KEEP_CONN: u8 = 1;

#[derive(Clone, Copy, Debug, PartialEq, Eq)]
pub struct Header {
    pub version: u8,
    pub kind: u8,
    pub id: u16,
    pub content: u16,
    pub padding: u8,
}

impl Header {
    /// The eighth byte is reserved and not looked at.
    pub fn read(bytes: &[u8; HEADER]) -> Header {
        Header {
            version: bytes[0],
            kind: bytes[1],
            id: u16::from_be_bytes([bytes[2], bytes[3]]),
            content: u16::from_be_bytes([bytes[4], bytes[5]]),
            padding: bytes[6],
        }
    }

    pub fn to_bytes(self) -> [u8; HEADER] {
        let [id_high, id_low] = self.id.to_be_bytes();
        let [content_high, content_low] = self.content.to_be_bytes();
        [
            self.version,
            self.kind,
            id_high,
            id_low,
            content_high,
            content_low,
            self.padding,
            0,
        ]
    }
}

/// A written record has its content padded to a multiple of eight.
pub fn record_length(content: usize) -> usize {
    HEADER + content.next_multiple_of(8)
}

/// Writes a record at the buffer's start and answers its length. The buffer has room for it.
pub fn write_record(buffer: &mut [u8], kind: u8, id: u16, content: &[u8]) -> usize {
    let length = record_length(content.len());
    let padding = length - HEADER - content.len();
    let header = Header {
        version: VERSION,
        kind,
        id,
        content: content.len() as u16,
        padding: padding as u8,
    };
    buffer[..HEADER].copy_from_slice(&header.to_bytes());
    buffer[HEADER..HEADER + content.len()].copy_from_slice(content);
    buffer[HEADER + content.len()..length].fill(0);
    length
}

/// A record as others may write it: any padding, any reserved byte.
pub fn record_with(kind: u8, id: u16, content: &[u8], reserved: u8, padding: &[u8]) -> Vec<u8> {
    let header = Header {
        version: VERSION,
        kind,
        id,
        content: content.len() as u16,
        padding: padding.len() as u8,
    };
    let mut bytes = header.to_bytes().to_vec();
    bytes[HEADER - 1] = reserved;
    bytes.extend(content);
    bytes.extend(padding);
    bytes
}

/// The body of END_REQUEST: the application's status, the protocol's, three reserved bytes.
pub fn end_body(application: u32, protocol: u8) -> [u8; 8] {
    let [a, b, c, d] = application.to_be_bytes();
    [a, b, c, d, protocol, 0, 0, 0]
}
