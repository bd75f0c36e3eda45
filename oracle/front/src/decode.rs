//! Program `decode`: a row of records (length u16, then that many bytes), and for each the line of
//! the message that the bytes are, or `undecodable`. A record that is cut short ends the program.

pub fn run(mut input: &[u8]) -> String {
    let mut out = String::new();
    while let Some((length, rest)) = input.split_first_chunk::<2>() {
        let length = usize::from(u16::from_le_bytes(*length));
        let Some((bytes, rest)) = rest.split_at_checked(length) else {
            break;
        };
        input = rest;
        match wire::read(bytes) {
            Some(message) => out.push_str(&wire::line(&message)),
            None => out.push_str("undecodable"),
        }
        out.push('\n');
    }
    out
}
