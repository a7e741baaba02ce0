//! Tables at the limits, deep and wide.

/// A table's bytes.
pub fn bytes(rows: &[[i32; 4]]) -> Vec<u8> {
    let line = |row: &[i32; 4]| format!("{},{},{},{}\n", row[0], row[1], row[2], row[3]);
    let lines: String = rows.iter().map(line).collect();
    format!("kind,a,b,c\n{lines}").into_bytes()
}

/// Links of one kind, each around the next, 1,020 rows deep, with an assignment innermost.
pub fn nested(outer: i32) -> Vec<[i32; 4]> {
    let mut rows = vec![[1, 1, 0, 0]];
    while rows.len() < 1_020 {
        let next = rows.len() as i32 + 1;
        rows.extend([[outer, next, 0, 0], [40, next + 1, -1, 0]]);
    }
    let last = rows.len() as i32;
    rows.extend([[22, 0, last + 1, last + 2], [10, 0, 0, 0], [10, 7, 0, 0]]);
    rows
}

/// An assignment of a NOT of a NOT of ..., 1,020 rows deep.
pub fn deep_expression() -> Vec<[i32; 4]> {
    let mut rows = vec![[1, 1, 0, 0], [22, 0, 2, 3], [10, 0, 0, 0]];
    while rows.len() < 1_020 {
        rows.push([12, 1, rows.len() as i32 + 1, 0]);
    }
    rows.push([10, 5, 0, 0]);
    rows
}

/// A WHILE in a WHILE in ..., 1,020 rows deep, with an assignment innermost that never ends the innermost.
pub fn deep_loops() -> Vec<[i32; 4]> {
    let mut rows = vec![[1, 1, 0, 0]];
    while rows.len() < 1_020 {
        let next = rows.len() as i32 + 1;
        rows.extend([[33, next, next + 1, 0], [10, 1, 0, 0]]);
    }
    let last = rows.len() as i32;
    rows.extend([[22, 0, last + 1, last + 2], [10, 0, 0, 0], [10, 7, 0, 0]]);
    rows
}

/// An assignment of 1 PLUS (1 PLUS ...), or of (... PLUS 1) PLUS 1, 1,020 rows deep.
pub fn deep_sum(to_the_right: bool) -> Vec<[i32; 4]> {
    let mut rows = vec![[1, 1, 0, 0], [22, 0, 2, 3], [10, 0, 0, 0]];
    while rows.len() < 1_020 {
        let row = rows.len() as i32;
        let operands = if to_the_right { [1, 2] } else { [2, 1] };
        rows.extend([[13, 5, row + operands[0], row + operands[1]], [10, 1, 0, 0]]);
    }
    rows.push([10, 1, 0, 0]);
    rows
}

/// An assignment of v[v[v[...]]], 1,020 rows deep.
pub fn deep_subscript() -> Vec<[i32; 4]> {
    let mut rows = vec![[1, 1, 0, 0], [22, 0, 2, 3], [10, 0, 0, 0]];
    while rows.len() < 1_020 {
        rows.push([11, 0, rows.len() as i32 + 1, 0]);
    }
    rows.push([10, 0, 0, 0]);
    rows
}

/// PAR(v[NOT NOT ... 0] := 7, v[0] := 8) with an odd number of NOTs, 1,020 rows deep.
pub fn deep_constant() -> Vec<[i32; 4]> {
    let mut rows = vec![
        [1, 2, 0, 0],
        [31, 2, 0, 0],
        [40, 3, 4, 0],
        [22, 0, 9, 5],
        [40, 6, -1, 0],
        [10, 7, 0, 0],
        [22, 0, 7, 8],
        [10, 0, 0, 0],
        [10, 8, 0, 0],
    ];
    while rows.len() < 1_020 {
        rows.push([12, 1, rows.len() as i32 + 1, 0]);
    }
    rows.push([10, 0, 0, 0]);
    rows
}

/// An assignment of GIVEN v[GIVEN v[...]], 1,020 rows deep, in a variable of two cells.
pub fn deep_given() -> Vec<[i32; 4]> {
    let mut rows = vec![[1, 2, 0, 0], [22, 0, 2, 3], [10, 0, 0, 0]];
    while rows.len() < 1_020 {
        let row = rows.len() as i32;
        rows.extend([[12, 2, row + 1, 0], [11, 0, row + 2, 0]]);
    }
    rows.push([10, 0, 0, 0]);
    rows
}

/// Four channels to the host of 256 each, in a PAR of loops that write absences until all is full.
pub fn absences_everywhere() -> Vec<[i32; 4]> {
    let mut rows = vec![[2, 1, 2, 256]; 4];
    rows.extend([[1, 1, 0, 0], [31, 6, 0, 0]]);
    let mut links = Vec::new();
    for channel in 0..4 {
        member(&mut rows, &mut links, |r| {
            vec![
                [33, r + 1, r + 2, 0],
                [10, 1, 0, 0],
                [24, channel, r + 3, r + 4],
                [10, 0, 0, 0],
                [11, 4, r + 5, 0],
                [10, 0, 0, 0],
            ]
        });
    }
    tie(&mut rows, &links);
    rows
}

/// An IF in an IF in ..., 1,020 rows deep, with SKIP innermost.
pub fn deep_ifs() -> Vec<[i32; 4]> {
    let mut rows = Vec::new();
    while rows.len() < 1_020 {
        let row = rows.len() as i32;
        rows.extend([
            [32, row + 1, 0, 0],
            [41, row + 3, -1, row + 2],
            [10, 1, 0, 0],
        ]);
    }
    rows.push([21, 0, 0, 0]);
    rows
}

/// An ALT in an ALT in ..., 1,020 rows deep, with SKIP innermost.
pub fn deep_alts() -> Vec<[i32; 4]> {
    let mut rows = Vec::new();
    while rows.len() < 1_020 {
        let row = rows.len() as i32;
        rows.extend([
            [34, row + 1, 0, 0],
            [42, row + 5, -1, row + 2],
            [43, row + 3, row + 4, 0],
            [10, 1, 0, 0],
            [21, 0, 0, 0],
        ]);
    }
    rows.push([21, 0, 0, 0]);
    rows
}

/// A loop around PARs in one another, 1,020 rows deep, each with a SKIP beside the next.
pub fn deep_pars_in_a_loop() -> Vec<[i32; 4]> {
    let mut rows = vec![[33, 1, 2, 0], [10, 1, 0, 0]];
    while rows.len() < 1_020 {
        let row = rows.len() as i32;
        rows.extend([
            [31, row + 1, 0, 0],
            [40, row + 2, row + 3, 0],
            [21, 0, 0, 0],
            [40, row + 4, -1, 0],
        ]);
    }
    rows.push([21, 0, 0, 0]);
    rows
}

/// A loop around blocks in one another, each of a variable of its own and with a PAR beneath it, with
/// an assignment innermost: 1,005 rows.
pub fn deep_blocks_in_a_loop() -> Vec<[i32; 4]> {
    let mut rows = vec![[1, 1, 0, 0]; 250];
    rows.extend([[33, 251, 252, 0], [10, 1, 0, 0]]);
    for variable in 0..250 {
        let row = rows.len() as i32;
        rows.extend([
            [35, variable, row + 1, 0],
            [31, row + 2, 0, 0],
            [40, row + 3, -1, 0],
        ]);
    }
    let last = rows.len() as i32;
    rows.extend([[22, 100, last + 1, last + 2], [10, 0, 0, 0], [10, 7, 0, 0]]);
    rows
}

/// A PAR of four loops, each around a block of 64 cells that sets the last one in each pass.
pub fn blocks_of_all_cells() -> Vec<[i32; 4]> {
    let mut rows = vec![[1, 64, 0, 0]; 4];
    rows.push([31, 5, 0, 0]);
    let mut links = Vec::new();
    for variable in 0..4 {
        member(&mut rows, &mut links, |r| {
            vec![
                [33, r + 1, r + 2, 0],
                [10, 1, 0, 0],
                [35, variable, r + 3, 0],
                [22, variable, r + 4, r + 5],
                [10, 63, 0, 0],
                [10, variable, 0, 0],
            ]
        });
    }
    tie(&mut rows, &links);
    rows
}

/// A SEQ or PAR of as many SKIPs as a table can have, in a loop.
pub fn wide_in_a_loop(outer: i32) -> Vec<[i32; 4]> {
    let mut rows = vec![[33, 1, 2, 0], [10, 1, 0, 0], [outer, 3, 0, 0]];
    while rows.len() < 1_023 {
        let row = rows.len() as i32;
        let next = if rows.len() + 2 < 1_023 { row + 2 } else { -1 };
        rows.extend([[40, row + 1, next, 0], [21, 0, 0, 0]]);
    }
    rows
}

/// A PAR of so many SKIPs; 511 are as many as a table can have.
pub fn skips(count: i32) -> Vec<[i32; 4]> {
    let mut rows = vec![[31, 1, 0, 0]];
    let mut links = Vec::new();
    for _ in 0..count {
        member(&mut rows, &mut links, |_| vec![[21, 0, 0, 0]]);
    }
    tie(&mut rows, &links);
    rows
}

/// A PAR of 506 SKIPs and two outputs to one channel element, the last of its members: 1,022 rows.
pub fn outputs_after_skips() -> Vec<[i32; 4]> {
    let mut rows = vec![[2, 1, 0, 0], [31, 2, 0, 0]];
    let mut links = Vec::new();
    for _ in 0..506 {
        member(&mut rows, &mut links, |_| vec![[21, 0, 0, 0]]);
    }
    for _ in 0..2 {
        member(&mut rows, &mut links, |r| {
            vec![[24, 0, r + 1, r + 2], [10, 0, 0, 0], [10, 1, 0, 0]]
        });
    }
    tie(&mut rows, &links);
    rows
}

/// 508 PARs in one another, of one member each but the innermost, which has four SKIPs: 1,023 rows.
pub fn nested_pars() -> Vec<[i32; 4]> {
    let mut rows = Vec::new();
    for _ in 0..507 {
        let row = rows.len() as i32;
        rows.extend([[31, row + 1, 0, 0], [40, row + 2, -1, 0]]);
    }
    rows.push([31, rows.len() as i32 + 1, 0, 0]);
    let mut links = Vec::new();
    for _ in 0..4 {
        member(&mut rows, &mut links, |_| vec![[21, 0, 0, 0]]);
    }
    tie(&mut rows, &links);
    rows
}

/// Puts a member of a PAR down: its link, then its rows. The links are tied together afterwards.
fn member(
    rows: &mut Vec<[i32; 4]>,
    links: &mut Vec<usize>,
    process: impl Fn(i32) -> Vec<[i32; 4]>,
) {
    let at = rows.len();
    links.push(at);
    rows.push([40, at as i32 + 1, -1, 0]);
    rows.extend(process(at as i32 + 1));
}

/// Ties the links of a PAR together.
fn tie(rows: &mut [[i32; 4]], links: &[usize]) {
    for pair in links.windows(2) {
        rows[pair[0]][2] = pair[1] as i32;
    }
}

/// 1,023 rows, 256 cells, 256 channel elements, 8 channels from the host and 8 to it, capacities of 1,024.
pub fn largest() -> Vec<[i32; 4]> {
    let mut rows: Vec<[i32; 4]> = (0..4).map(|_| [1, 64, 0, 0]).collect();
    rows.extend([64, 64, 64, 48].map(|size| [2, size, 0, 0]));
    rows.extend((0..8).map(|_| [2, 1, 1, 0]));
    rows.extend((0..8).map(|_| [2, 1, 2, 128]));
    rows.push([31, 25, 0, 0]);
    let mut links = Vec::new();
    for k in 0..8 {
        member(&mut rows, &mut links, |r| {
            let target = [11, 0, r + 3, 0];
            vec![
                [23, 8 + k, r + 1, r + 2],
                [10, 0, 0, 0],
                target,
                [10, k, 0, 0],
            ]
        });
        member(&mut rows, &mut links, |r| {
            vec![
                [24, 16 + k, r + 1, r + 2],
                [10, 0, 0, 0],
                [10, 100 + k, 0, 0],
            ]
        });
    }
    for k in 8..239 {
        member(&mut rows, &mut links, |r| {
            vec![
                [22, k / 64, r + 1, r + 2],
                [10, k % 64, 0, 0],
                [10, k, 0, 0],
            ]
        });
    }
    member(&mut rows, &mut links, |_| vec![[21, 0, 0, 0]]);
    tie(&mut rows, &links);
    rows
}

/// 128 lines of readings for channels 8 to 15, some absent.
pub fn readings() -> Vec<u8> {
    let mut sheet = String::from("8,9,10,11,12,13,14,15\n");
    for line in 0..128_i32 {
        let field = |k: i32| {
            if (line + k) % 5 == 4 {
                String::new()
            } else {
                (line * 8 + k).to_string()
            }
        };
        let fields: Vec<String> = (0..8).map(field).collect();
        sheet.push_str(&fields.join(","));
        sheet.push('\n');
    }
    sheet.into_bytes()
}
