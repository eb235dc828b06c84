//! SHAKE256 against values that are published, and at the edges of blocks against values of Python's hashlib.

use second::shake::{padded, shake256};

/// The first bytes of the output, in hexadecimal.
fn hashed(message: &[u8], count: usize) -> String {
    let mut output = vec![7; count];
    shake256(message, &mut output);
    output.iter().map(|byte| format!("{byte:02x}")).collect()
}

/// A message of the bytes 0, 1, .., 250, 0, 1, ..
fn counted(length: usize) -> Vec<u8> {
    (0..length).map(|i| (i % 251) as u8).collect()
}

/// The bytes of a message as it is padded.
fn padded_bytes(message: &[u8]) -> Vec<u8> {
    let byte = |bits: &[bool]| bits.iter().rev().fold(0, |b, bit| 2 * b + *bit as u8);
    padded(message).chunks(8).map(byte).collect()
}

#[test]
fn published() {
    let empty = "\
        46b9dd2b0ba88d13233b3feb743eeb243fcd52ea62b81b82b50c27646ed5762fd75dc4ddd8c0f200cb05019d67b592f6fc82\
        1c49479ab48640292eacb3b7c4be141e96616fb13957692cc7edd0b45ae3dc07223c8e92937bef84bc0eab862853349ec755\
        46f58fb7c2775c38462c5010d846c185c15111e595522a6bcd16cf86f3d122109e3b1fdd943b6aec468a2d621a7c06c6a957\
        c62b54dafc3be87567d677231395f6147293b68ceab7a9e0c58d864e8efde4e1b9a46cbe854713672f5caaae314ed9083dab\
        4b099f8e300f01b8650f1f4b1d8fcf3f3cb53fb8e9eb2ea203bdc970f50ae55428a91f7f53ac266b28419c3778a15fd248d3\
        39ede785fb7f5a1aaa96d313eacc890936c173cdcd0fab882c45755feb3aed96d477ff96390bf9a66d1368b208e21f7c10d0";
    assert_eq!(hashed(b"", 300), empty);
    let abc = "\
        483366601360a8771c6863080cc4114d8db44530f8f1e1ee4f94ea37e78b5739\
        d5a15bef186a5386c75744c0527e1faa9f8726e462a12a4feb06bd8801e751e4";
    assert_eq!(hashed(b"abc", 64), abc);
    let a3 = "\
        cd8a920ed141aa0407a22d59288652e9d9f1a7ee0c1e7c1ca699424da84a904d\
        2d700caae7396ece96604440577da4f3aa22aeb8857f961c4cd8e06f0ae6610b";
    assert_eq!(hashed(&[0xa3; 200], 64), a3);
}

/// Messages about the ends of one block and of two: of 300 bytes the first 20, and the last 20, of the third block.
#[test]
fn edges_of_blocks() {
    for (length, first, last) in [
        (134, "391d31c757ba04f9ba9eb6b9293e297f09d07e52", "ddededc12f56a4133bf088dc74c5abdd257ce91b"),
        (135, "c45dae624ad8a2f5aa7bac9d7557737fd91c96ee", "b533f52668759099525c4a6da6733c2eabb3bb4a"),
        (136, "b7ff4073b3f5a8eabd6e17705ca7f6761a31058f", "cfa3b7911a24d648b1bf2b782c7c7a0867dbae51"),
        (137, "01d90952c642a5eb2a8fc9d713f843a45d7ac051", "262ffa559292139c76cdbda6cd0a2754dfccd964"),
        (271, "946985982420b82481721a498ef0c8668d553177", "f2379f1d5cb3a17340350733b4f584b36b96bfe7"),
        (272, "e3299fa992163e7ffc875aff708dac93d2157e9b", "69e9f59b71a6cf16b8abb04a5b9a956595926213"),
        (273, "3bf949e3523de3b5a8cb9e105ae817050987d0f3", "091d5384f97c81ba4bb7b08a63fd2565c11891bb"),
        (1000, "34833f03ed88bb5f083ce590c7ae5af93ede33e1", "7da93d8323d0f4948d66aa50b27e78840e063735"),
    ] {
        let found = hashed(&counted(length), 300);
        assert_eq!((&found[..40], &found[560..]), (first, last), "length {length}");
    }
}

/// An output of any length is the front of a longer one.
#[test]
fn outputs_of_any_length() {
    let whole = hashed(b"dose", 1000);
    for count in (0..=300).chain([407, 408, 409, 999]) {
        assert_eq!(hashed(b"dose", count), whole[..2 * count]);
    }
}

/// 1111 and a 1 are the byte 1f, and the 1 that ends a block is 80: both in one byte where one is left.
#[test]
fn padding() {
    for blocks in [1, 2, 3] {
        // what follows a message that leaves so many bytes of its last block
        let behind = |left: usize| {
            let message = counted(136 * blocks - left);
            let all = padded_bytes(&message);
            assert_eq!(all[..message.len()], message);
            all[message.len()..].to_vec()
        };
        assert_eq!(behind(1), [0x9f]);
        assert_eq!(behind(2), [0x1f, 0x80]);
        assert_eq!(behind(3), [0x1f, 0, 0x80]);
        for left in [135, 136] {
            assert_eq!(behind(left), [vec![0x1f], vec![0; left - 2], vec![0x80]].concat());
        }
    }
    // a message that fills its block is followed by a block of padding
    assert_eq!(padded_bytes(&counted(136))[136..], padded_bytes(b""));
}
