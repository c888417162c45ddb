//! Halls with a name or a pattern. The server is point 0 unless said otherwise.

use std::fs;
use std::path::Path;

use crate::record::{Record, MOST_NODES};
use crate::reference;

/// A hall whose cables 0, 1, 2 .. join these points in turn.
pub fn hall(nodes: u8, sink: u8, ends: &[(u8, u8)]) -> Record {
    ends.iter().enumerate().fold(
        Record::bare(nodes, 0, sink),
        |hall, (edge, &(one, other))| hall.with(edge, one, other),
    )
}

const BRIDGE: [(u8, u8); 5] = [(0, 1), (0, 2), (1, 2), (1, 3), (2, 3)];

pub fn bridge() -> Record {
    hall(4, 3, &BRIDGE)
}

/// The bridge with a loop at each of its points.
pub fn bridge_with_loops() -> Record {
    hall(4, 3, &[&BRIDGE[..], &loops(4)].concat())
}

pub fn bar_cable() -> Record {
    hall(4, 3, &[(0, 1), (0, 2), (1, 2), (1, 3)])
}

pub fn spur() -> Record {
    hall(4, 2, &[(0, 1), (1, 2), (1, 3)])
}

pub fn hanging_triangle() -> Record {
    hall(5, 2, &[(0, 1), (1, 2), (1, 3), (3, 4), (4, 1)])
}

/// Two points joined by so many cables.
pub fn two_points(cables: usize) -> Record {
    hall(2, 1, &vec![(0, 1); cables])
}

/// Three points in a line, cable 0 at the server.
pub fn line_of_three() -> Record {
    hall(3, 2, &[(0, 1), (1, 2)])
}

/// The same with the cables exchanged.
pub fn line_of_three_exchanged() -> Record {
    hall(3, 2, &[(1, 2), (0, 1)])
}

/// Every pair of points joined; the room is the last point.
pub fn complete(nodes: u8) -> Record {
    hall(nodes, nodes - 1, &pairs(nodes))
}

/// Every pair of points.
pub fn pairs(nodes: u8) -> Vec<(u8, u8)> {
    (0..nodes)
        .flat_map(|one| (one + 1..nodes).map(move |other| (one, other)))
        .collect()
}

/// Every point with itself.
fn loops(nodes: u8) -> Vec<(u8, u8)> {
    (0..nodes).map(|node| (node, node)).collect()
}

/// Every way to lay a cable, but for the order of its ends.
pub fn ends(nodes: u8) -> Vec<(u8, u8)> {
    [pairs(nodes), loops(nodes)].concat()
}

/// A loop at each point and no other cable; the room is the last point.
pub fn loops_alone(nodes: u8) -> Record {
    hall(nodes, nodes - 1, &loops(nodes))
}

/// The server joined to each of a line of points, the line's far end to the room.
pub fn fan(line: u8) -> Record {
    let mut ends: Vec<(u8, u8)> = (1..=line).map(|node| (0, node)).collect();
    ends.extend((1..=line).map(|node| (node, node + 1)));
    hall(line + 2, line + 1, &ends)
}

/// Server and room each joined to every one of the points between them: 2^middle minimal cuts.
pub fn two_hubs(middle: u8) -> Record {
    let ends: Vec<(u8, u8)> = (1..=middle)
        .flat_map(|node| [(0, node), (node, middle + 1)])
        .collect();
    hall(middle + 2, middle + 1, &ends)
}

/// Two layers of so many points: the server joined to each of the first, each of these to three of the
/// second, and each of the second to the room.
pub fn layers(points: u8) -> Record {
    let (second, sink) = (points + 1, 2 * points + 1);
    let mut ends = Vec::new();
    for place in 0..points {
        ends.push((0, 1 + place));
        ends.extend((place..place + 3).map(|other| (1 + place, second + other % points)));
        ends.push((second + place, sink));
    }
    hall(2 * points + 2, sink, &ends)
}

/// A grid of points, server and room in opposite corners.
pub fn grid(rows: u8, columns: u8) -> Record {
    let at = |row, column| row * columns + column;
    let mut ends = Vec::new();
    for row in 0..rows {
        for column in 0..columns {
            if column + 1 < columns {
                ends.push((at(row, column), at(row, column + 1)));
            }
            if row + 1 < rows {
                ends.push((at(row, column), at(row + 1, column)));
            }
        }
    }
    hall(rows * columns, rows * columns - 1, &ends)
}

/// Points on a circle, each joined to those `steps` further on; the room stands half way round.
pub fn circle(nodes: u8, steps: &[u8]) -> Record {
    let ends: Vec<(u8, u8)> = steps
        .iter()
        .flat_map(|&step| (0..nodes).map(move |node| (node, (node + step) % nodes)))
        .collect();
    hall(nodes, nodes / 2, &ends)
}

/// A line of points, each joined to the next by so many cables.
pub fn line(nodes: u8, cables: usize) -> Record {
    let ends: Vec<(u8, u8)> = (1..nodes)
        .flat_map(|node| vec![(node - 1, node); cables])
        .collect();
    hall(nodes, nodes - 1, &ends)
}

/// Groups of four points, all joined among themselves, one behind the other with a single cable
/// from each to the next.
pub fn string_of_fours(groups: u8) -> Record {
    let mut ends = Vec::new();
    for group in 0..groups {
        let first = 4 * group;
        if group > 0 {
            ends.push((first - 1, first));
        }
        for one in first..first + 4 {
            ends.extend((one + 1..first + 4).map(|other| (one, other)));
        }
    }
    hall(4 * groups, 4 * groups - 1, &ends)
}

/// Halls of every kind, with a route and without, of few cables and of all, of two points and of all.
pub fn named() -> Vec<Record> {
    vec![
        bridge(),
        bridge_with_loops(),
        bar_cable(),
        spur(),
        hanging_triangle(),
        line_of_three(),
        line_of_three_exchanged(),
        two_points(0),
        two_points(1),
        two_points(2),
        two_points(16),
        two_points(17),
        two_points(64),
        loops_alone(3),
        complete(11),
        fan(30),
        two_hubs(11),
        grid(2, 22),
        grid(4, 8),
        circle(64, &[1]),
        line(32, 2),
        line(64, 1),
        string_of_fours(8),
        spread(&bridge()),
    ]
}

/// The same hall with its points spread over all numbers that points can have, in their order; the
/// points between them hang on nothing.
pub fn spread(hall: &Record) -> Record {
    let last = MOST_NODES - 1;
    let place = |node: u8| (u16::from(node) * u16::from(last) / u16::from(hall.nodes - 1)) as u8;
    let bare = Record::bare(MOST_NODES, place(hall.source), place(hall.sink));
    hall.edges().fold(bare, |spread, edge| {
        spread.with(edge, place(hall.first[edge]), place(hall.second[edge]))
    })
}

/// The same hall with server and room exchanged.
pub fn turned(mut hall: Record) -> Record {
    (hall.source, hall.sink) = (hall.sink, hall.source);
    hall
}

/// The plans that lie in halls/, refused ones too: the name of each, and its bytes.
pub fn files() -> Vec<(String, Vec<u8>)> {
    let folder = Path::new(env!("CARGO_MANIFEST_DIR")).join("../halls");
    let files = fs::read_dir(folder).expect("the folder halls");
    let mut plans: Vec<(String, Vec<u8>)> = files
        .map(|file| {
            let path = file.expect("a file").path();
            let text = fs::read_to_string(&path).expect("a text");
            let digits = text.lines().flat_map(|line| line.split('#').next());
            let digits: String = digits.collect();
            let name = path.file_name().expect("a name").to_string_lossy();
            (name.into_owned(), bytes(&digits))
        })
        .collect();
    plans.sort_unstable();
    plans
}

/// The slowest list that was found among plans with at most 2,048 rows: it has 1,873.
pub fn slowest_list() -> Record {
    plan(SLOWEST_LIST)
}

/// The slowest refusal that was found where 2,048 rows are lent and do not suffice.
pub fn slowest_refusal() -> Record {
    plan(SLOWEST_REFUSAL)
}

/// The hall of a plan in hexadecimal.
fn plan(digits: &str) -> Record {
    reference::decode(&bytes(digits)).expect("a plan")
}

/// The bytes of two hexadecimal digits each, with or without gaps between them.
fn bytes(digits: &str) -> Vec<u8> {
    let digits: String = digits.split_whitespace().collect();
    let byte = |at| u8::from_str_radix(&digits[at..at + 2], 16).expect("two digits");
    (0..digits.len()).step_by(2).map(byte).collect()
}

const SLOWEST_LIST: &str = "\
    502B53101343001D164301221C430212174303061F43041B264305091043060B09430704084308210A4309161B430A10\
    26430B101A430C1016430D1015430E1005430F0E1843101012431123214312291343131C254314101F43152A1E431610\
    1E4317080D4318102243192814431A1002431B101D431C011C431D1028431E1027431F19284320100F4321001A432210\
    204323180B4324191043251000432602114327110E43281E2043291812432A2619432B0C07432C0506432D1F15432E07\
    28432F0D0C4330101B43311F244332241D4333272943341A174335142243361024433710254338151A4339010F433A25\
    2A433B1004433C2023433D101C433E1023433F0A2745";

const SLOWEST_REFUSAL: &str = "\
    5025530913430009014301171F430207154303041F4304001543051224430609004307090D4308091043090A1B430A09\
    23430B0904430C161A430D0D08430E2312430F0315431009024311091C4312091E4313070D4314090C43151A1B431609\
    20431709194318091643191F21431A090B431B0215431C091A431D0908431E090F431F0C0F4320091843210115432209\
    24432309034324091143251B1C4326091D432709224328032143291916432A2010432B1422432C2220432D1E14432E0F\
    0E432F09144330241343311305433209124333090E43341E0F4335102343360E184337181943381C114339111D433A21\
    15433B090A433C1D17433D0917433E0905433F0B1E45";
