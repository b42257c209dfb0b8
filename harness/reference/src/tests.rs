//! The original over the stand-ins, against constants and answers that were worked out elsewhere.

macro_rules! with_original {
    ($name:ident $body:block) => {
        #[test]
        #[cfg_attr(not(original), ignore = "the original is not at hand")]
        fn $name() {
            #[cfg(original)]
            $body
        }
    };
}

with_original!(constants_of_a_leaf {
    assert_eq!(
        crate::gyroid::access::constants::of_the_leaf(),
        [
            [0x401921FB54442D18, 0x401921FB54442D19],
            [0x3FB9999999999999, 0x3FB999999999999B],
            [0x3FE41B2F769CF0DF, 0x3FE41B2F769CF0E3],
            [0x3FD94424D9457823, 0x3FD94424D945782F],
            [0x4001999999999999, 0x400199999999999B],
            [0x3FF61BA03E1CC91E, 0x3FF61BA03E1CC92A],
        ]
    );
});

with_original!(series_and_tails {
    assert_eq!(
        crate::gyroid::access::constants::series(),
        [
            [
                0x3FF0000000000000, 0xBFC5555555555555, 0x3F81111111111111,
                0xBF2A01A01A01A01A, 0x3EC71DE3A556C734, 0xBE5AE64567F544E4,
                0x3DE6124613A86D09, 0xBD6AE7F3E733B81F, 0x3CE952C77030AD4A,
            ],
            [
                0x3FF0000000000000, 0xBFE0000000000000, 0x3FA5555555555555,
                0xBF56C16C16C16C17, 0x3EFA01A01A01A01A, 0xBE927E4FB7789F5C,
                0x3E21EED8EFF8D898, 0xBDA93974A8C07C9D, 0x3D2AE7F3E733B81F,
            ],
        ]
    );
    assert_eq!(
        crate::gyroid::access::constants::tails(),
        [0x3C017BBD5335428C, 0x3C49F3AD07830EC7]
    );
});

/// Requests, then the original's answers.
#[cfg(original)]
const ASKED: &[[&str; 2]] = &[
    // Document 01's listing: the whole box, and its half.
    [
        "residual 10240 0 0 0 0 0 0 0 0 2048 0 1 0 0 0 0 0 0 0000000000000000 3FF0000000000000 0000000000000000 3FF0000000000000 0000000000000000 3FF0000000000000",
        "C003C8A92EA5E61F 3FCE40371FDE9E60",
    ],
    [
        "residual 10240 0 0 0 0 0 0 0 0 2048 0 1 0 0 0 0 0 0 0000000000000000 3FE0000000000000 0000000000000000 3FF0000000000000 0000000000000000 3FF0000000000000",
        "C002C3D05159ED81 BFC44DB62B784670",
    ],
    // Marked G, seven of the least doubles before its start plane: the piece is Start.
    [
        "residual 10240 0 1 0 0 0 10240 0 0 -256 256 1 0 0 0 0 0 0 BF50000000000000 8000000000000007 \
         0000000000000000 0000000000000000 0000000000000000 0000000000000000",
        "3FCFEBE40672D19F 3FD00000650DEE11",
    ],
    // Marked values (1), (7), (10) and (12).
    ["grade_range 10240 0 1 0 0 0 10240 0 0 -256 256 1 0 0 0 0 0 0 0 0 0 5120 0 0", "-256/1 0/1"],
    ["level_piece 10240 0 1 0 0 0 10240 0 0 -256 256 1 0 0 0 0 0 0 -1 0 0 1 0 0", "none"],
    ["graded 10240 0 1 0 0 0 5119 0 0 -256 256 1 0 0 0 0 0 0", "refused 5"],
    ["graded 10240 0 1 0 0 0 0 0 0 7 7 1 0 0 0 0 0 0", "refused 2"],
    ["planes 1 0 1 0 5 0 0 -5 0 0 1 1 0 0 0 0 0 0", "1 5/1 -5/1"],
    ["saturated 1 0 0 0 0 0 0 0 0 1536 0 1 0 0 0 0 0 0", "1"],
    // The primitive surface: the listing's two boxes, a jet, derivatives and a point, from a script written from document 02's words.
    [
        "residual 10240 2 0 0 0 0 0 0 0 2048 0 1 0 0 0 0 0 0 0000000000000000 3FF0000000000000 0000000000000000 3FF0000000000000 0000000000000000 3FF0000000000000",
        "3FDA7D1297644E9F 3FF4ADE593F3EB58",
    ],
    [
        "residual 10240 2 0 0 0 0 0 0 0 2048 0 1 0 0 0 0 0 0 0000000000000000 3FE0000000000000 0000000000000000 3FF0000000000000 0000000000000000 3FF0000000000000",
        "3FE1EBCD946974C9 3FF38359F083D3F7",
    ],
    [
        "jet 10240 2 0 0 0 0 0 0 0 0 0 1 0 0 0 0 0 0 3FF4CCCCCCCCCCCD 3FF4CCCCCCCCCCCD C00599999999999A C00599999999999A 401C666666666666 401C666666666666",
        "3FD3DF9FFE438E13 3FD3DF9FFE438EB9 BFDD5045FAC2B2B8 BFDD5045FAC2B298 3FE3F2992ACD198A 3FE3F2992ACD1996 3FE3797A23D3ABFF 3FE3797A23D3AC0F",
    ],
    [
        "derivatives 10240 2 0 0 0 0 0 0 0 0 0 1 0 0 0 0 0 0 0000000000000000 3FE0000000000000 0000000000000000 3FF0000000000000 0000000000000000 3FF0000000000000 0",
        "BFE6184E1E549454 3FDF9BD24F273FF9 BFEC52319705FF3A 3FDFCA1DCA672648 BFEC52319705FF3B \
         3FDFCA1DCA67264A BFF029296A0C9282 3FCD7740B5DC0372 BFE3D81180C812EA 3FE3D81180C812EA \
         BFE3D81180C812EA 3FE3D81180C812EA BFE3D81180C812EA 3FE3D81180C812EA BFEFDBDA850CBC2C \
         3FCF5121F20DA6C8 BFE3D81180C812EA 3FE3D81180C812EA BFE3D81180C812EA 3FE3D81180C812EA \
         BFE3D81180C812EA 3FE3D81180C812EA BFEFDBDA850CBC2C 3FCF5121F20DA6C8",
    ],
    [
        "fast_distance 10240 2 0 0 0 0 0 0 0 100 0 1 0 0 0 0 0 0 3FF4CCCCCCCCCCCD C00599999999999A 401C666666666666",
        "3FB8C522E5921A2B",
    ],
    ["saturated 1 2 0 0 0 0 0 0 0 3072 0 1 0 0 0 0 0 0", "1"],
    ["saturated 1 2 0 0 0 0 0 0 0 3071 0 1 0 0 0 0 0 0", "none"],
    ["saturated 1 2 1 0 0 0 0 1 0 -3072 -3072 1 0 0 0 0 0 0", "0"],
    ["graded 1 1 0 0 0 0 0 0 0 0 0 1 0 0 0 0 0 0", "refused 3"],
    // What the original cannot be asked, and where it panics.
    ["graded 1 3 0 0 0 0 0 0 0 0 0 1 0 0 0 0 0 0", "unmade"],
    ["graded 1 0 1 -9223372036854775808 0 0 9223372036854775807 0 0 0 1 1 0 0 0 0 0 0", "unmade"],
    [
        "jet 1 0 0 0 0 0 0 0 0 0 0 1 0 0 0 0 0 0 3FF0000000000000 0000000000000000 0000000000000000 0000000000000000 0000000000000000 0000000000000000",
        "unmade",
    ],
    [
        "derivatives 1 0 0 0 0 0 0 0 0 0 0 1 0 0 0 0 0 0 FFF0000000000000 FFF0000000000000 0000000000000000 0000000000000000 0000000000000000 0000000000000000 0",
        "panicked",
    ],
];

with_original!(answers {
    for [line, said] in ASKED {
        assert_eq!(crate::answer(&line.parse().unwrap()).to_string(), *said, "{line}");
    }
});
