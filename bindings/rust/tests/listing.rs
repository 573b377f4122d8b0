//! Listings of document 01: its example, and refused scripts.

use deblock::list;

const EXAMPLE: &str = "frame 16 8 400 8 64 0
level 20 20 0 0
block 0 0 8x8 8x8 - I
block 2 0 8x8 8x8 - I
";

fn listed(script: &str) -> String {
    String::from_utf8(list(script.as_bytes())).unwrap()
}

#[test]
fn the_example() {
    let lines = [
        "plane\tpass\tx\ty\tclass\tlevel",
        "0\t0\t2\t0\t1\t20",
        "0\t0\t2\t1\t1\t20",
        "edges\t2",
    ];
    assert_eq!(listed(EXAMPLE), lines.join("\n") + "\n");
    assert_eq!(listed(EXAMPLE.trim_end()), listed(EXAMPLE));
}

#[test]
fn refused_lines() {
    let refused = |old, new, said| assert_eq!(listed(&EXAMPLE.replacen(old, new, 1)), said);
    refused("64 0", "64 8", "refused\t1\t1\n");
    refused("level 20", "level 64", "refused\t2\t2\n");
    refused("8 64", "9 64", "refused\t1\t3\n");
    refused("frame 16", "frame 257", "refused\t1\t4\n");
    refused("8x8 -", "9x9 -", "refused\t3\t5\n");
    refused("block 2", "block 3", "refused\t4\t5\n");
    refused("frame", "fram", "refused\t1\tform\n");
    refused("block 2 0", "block 2  0", "refused\t4\tform\n");
    assert_eq!(listed(""), "refused\t1\tform\n");
    assert_eq!(listed("frame 16 8 400 8 64 0\n"), "refused\t2\tform\n");
}

/// The longest listing that a frame of 256 by 256 samples has: every unit has its two edges in each plane.
#[test]
fn the_largest_frame() {
    let mut script = String::from("frame 256 256 444 8 64 0\nlevel 63 63 63 63\n");
    for n in 0..64 * 64 {
        script += &format!("block {} {} 4x4 4x4 4x4 I\n", n % 64, n / 64);
    }
    let said = listed(&script);
    let edges = 3 * 2 * 63 * 64;
    assert_eq!(said.lines().count(), edges + 2);
    assert!(said.ends_with(&format!("\nedges\t{edges}\n")));
}
