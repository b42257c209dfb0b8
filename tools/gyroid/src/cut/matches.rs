//! Bytes as literals and as copies of what stands before them (LZ77), by the last places where the same three bytes
//! stood.

/// How far back a copy may begin, and how long it may be: deflate's limits.
const WINDOW: usize = 1 << 15;
const SHORTEST: usize = 3;
const LONGEST: usize = 258;

/// How many earlier places are tried for the longest copy. More of them gain little and cost time.
const TRIES: usize = 48;

#[derive(Clone, Copy, Debug, PartialEq)]
pub enum Token {
    Literal(u8),
    Copy { length: usize, distance: usize },
}

/// Hands out the tokens that give these bytes.
pub fn tokens(bytes: &[u8], mut take: impl FnMut(Token)) {
    let mut places = Places::none();
    let mut at = 0;
    while at < bytes.len() {
        let token = places.longest(bytes, at);
        let length = if let Token::Copy { length, .. } = token { length } else { 1 };
        take(token);
        (at..at + length).for_each(|place| places.add(bytes, place));
        at += length;
    }
}

/// Where three bytes stood, the last place first. Places are counted from 1; 0 is none.
struct Places {
    last: Vec<usize>,
    /// The place before a place, for the last ones.
    before: Vec<usize>,
}

impl Places {
    fn none() -> Self {
        Self { last: vec![0; 1 << 15], before: vec![0; WINDOW] }
    }

    fn add(&mut self, bytes: &[u8], at: usize) {
        if let Some(key) = key(bytes, at) {
            self.before[at % WINDOW] = self.last[key];
            self.last[key] = at + 1;
        }
    }

    /// The longest copy for the bytes at a place, the nearest of equal ones, or the one byte there.
    fn longest(&self, bytes: &[u8], at: usize) -> Token {
        let (mut best, mut distance) = (SHORTEST - 1, 0);
        let most = LONGEST.min(bytes.len() - at);
        let mut place = key(bytes, at).map_or(0, |key| self.last[key]);
        for _ in 0..TRIES {
            if place == 0 || at + 1 - place > WINDOW || best >= most {
                break;
            }
            let length = common(&bytes[place - 1..], &bytes[at..], most);
            if length > best {
                (best, distance) = (length, at + 1 - place);
            }
            place = self.before[(place - 1) % WINDOW];
        }
        if distance == 0 { Token::Literal(bytes[at]) } else { Token::Copy { length: best, distance } }
    }
}

/// A number for the three bytes at a place. Others may have the same; `common` tells them apart.
fn key(bytes: &[u8], at: usize) -> Option<usize> {
    let three = bytes.get(at..at + SHORTEST)?;
    let number = three.iter().fold(0_u32, |number, byte| number << 8 | u32::from(*byte));
    Some((number.wrapping_mul(0x9E37_79B1) >> 17) as usize)
}

fn common(a: &[u8], b: &[u8], most: usize) -> usize {
    a.iter().zip(b).take(most).take_while(|(a, b)| a == b).count()
}

#[cfg(test)]
mod tests {
    use super::*;

    fn all(bytes: &[u8]) -> Vec<Token> {
        let mut all = Vec::new();
        tokens(bytes, |token| all.push(token));
        all
    }

    /// The bytes that tokens give.
    fn given(tokens: &[Token]) -> Vec<u8> {
        let mut bytes = Vec::new();
        for token in tokens {
            match *token {
                Token::Literal(byte) => bytes.push(byte),
                Token::Copy { length, distance } => (0..length).for_each(|_| bytes.push(bytes[bytes.len() - distance])),
            }
        }
        bytes
    }

    #[test]
    fn a_run_is_a_copy_of_itself() {
        assert_eq!(all(b""), []);
        assert_eq!(all(b"ab"), [Token::Literal(b'a'), Token::Literal(b'b')]);
        assert_eq!(all(b"aaaaa"), [Token::Literal(b'a'), Token::Copy { length: 4, distance: 1 }]);
        let long = all(&[7; 300]);
        let copies = [Token::Copy { length: 258, distance: 1 }, Token::Copy { length: 41, distance: 1 }];
        assert_eq!(long, [&[Token::Literal(7)][..], &copies].concat());
    }

    #[test]
    fn copies_begin_in_the_window() {
        let apart = |distance: usize| {
            let mut bytes = vec![0; distance + 3];
            bytes[..3].copy_from_slice(b"abc");
            bytes[distance..].copy_from_slice(b"abc");
            assert_eq!(given(&all(&bytes)), bytes);
            all(&bytes).last().copied()
        };
        assert_eq!(apart(WINDOW), Some(Token::Copy { length: 3, distance: WINDOW }));
        assert_eq!(apart(WINDOW + 1), Some(Token::Literal(b'c')));
    }

    #[test]
    fn tokens_give_the_bytes() {
        let bytes: Vec<u8> = (0..200_000_u64).map(|i| (i * i / 977 % 11) as u8).collect();
        assert_eq!(given(&all(&bytes)), bytes);
    }
}
