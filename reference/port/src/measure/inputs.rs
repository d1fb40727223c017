//! Files to time: a source and an image, or several.

use judge::{
    batch::MOST_FILES,
    frame,
    generate::{self, Class},
    image::{self, Tree, chosen, node, text},
    reader, script,
};

/// Files that are timed as one.
pub struct Input {
    pub name: String,
    pub files: Vec<File>,
}

pub struct File {
    pub source: Vec<u8>,
    pub image: Vec<u8>,
}

impl Input {
    /// Bytes of all sources and images.
    pub fn bytes(&self) -> usize {
        let files = self.files.iter();
        files.map(|file| file.source.len() + file.image.len()).sum()
    }
}

/// All inputs of the four steps.
pub fn all() -> Vec<Input> {
    vec![
        script("small save", small_save(0)),
        script("large tariff", large_tariff()),
        script("deep calls and lists", deep_calls()),
        wild(),
    ]
}

/// What brokers in Japan have: mostly characters of two columns.
pub fn japanese() -> Input {
    script("Japanese tariff", japanese_tariff())
}

/// Small saves, as many as a batch takes.
pub fn saves() -> Input {
    let first = |place| 1_000 + 10 * place;
    let saves = (0..MOST_FILES).map(|place| small_save(first(place)));
    let files = saves.flat_map(|source| script("a save", source).files);
    let files: Vec<File> = files.collect();
    let bytes: usize = files.iter().map(|file| file.source.len()).sum();
    Input {
        name: format!("{MOST_FILES} small saves ({bytes} bytes of source)"),
        files,
    }
}

fn script(name: &str, source: String) -> Input {
    let bytes = match script::frame(&source) {
        Ok(bytes) => bytes,
        Err(at) => panic!("{name}: not read at {:?}", source.get(at..)),
    };
    let frame = frame::split_any_size(&bytes).expect("a frame");
    assert!(reader::read(frame.source, frame.image).is_ok(), "{name}");
    Input {
        name: format!("{name} ({} bytes of source)", source.len()),
        files: vec![File {
            source: frame.source.to_vec(),
            image: frame.image.to_vec(),
        }],
    }
}

/// Text repeated up to about so many bytes; `#` is the number of the copy,
/// which is counted from the first.
fn repeated(piece: &str, first: usize, most: usize) -> String {
    let mut out = String::new();
    for copy in first.. {
        let next = piece.replace('#', &copy.to_string());
        if out.len() + next.len() > most {
            return out;
        }
        out.push_str(&next);
    }
    unreachable!("the source is full before")
}

/// About 2 KB, as an editor would send on a save; customers are numbered from
/// the first.
fn small_save(first: usize) -> String {
    const PIECE: &str = r#"
// Which routes of customer # are taken.
filtermap customer_#(route: Route, limits: Limits[u32]) {
    let length = route.prefix.len();   // in bits
    let peers: List[Asn]? = limits.peers.get("customer #", route.origin);

    if length > 24 && !route.is_ours() || limits.strict {
        reject
    } else {
        match route.origin {
            Known(asn) if asn == AS65000 => accept route.with(asn, 100 + length * 2),
            Known(asn) => { log(f"odd origin {asn}"); reject }
            _ => reject,
        }
    }
}
"#;
    const LAST: &str = r#"
// How many routes each customer may send, and what is said of them.
record Limits[T] { peers: Map[String, List[Asn]], strict: bool, most: T }

const DEFAULTS: Limits[u32] = Limits { peers: none, strict: false, most: 10_000 };

test limits_hold {
    let limits = DEFAULTS;
    for route in routes.of("192.0.2.0", limits.most) { check(route, limits)?; }
    while limits.most > 1 { limits.most /= 2; }
}
"#;
    repeated(PIECE, first, 1_700) + LAST
}

/// Nearly 64 KB of constants, records and lists.
fn large_tariff() -> String {
    const PIECE: &str = r#"
// Rates of zone #, valid from 2026.
record Zone# { name: String, base: u32, steps: List[{ from: u32, rate: u32 }], remark: String? }

const ZONE_#: Zone# = Zone# { name: "zone number #", base: 1200 + # * 3,
    steps: [{ from: 0, rate: 120 }, { from: 10, rate: 115 }, // the first two
            { from: 100, rate: 90 }, { from: 1000, rate: 75 + # % 5 }], remark: none };

fn price_#(amount: u32, zone: Zone#, discount: u32) -> u32 {
    let base = zone.base * amount - discount / 2;
    if amount >= 100 { return base - base / 10; }
    base
}
"#;
    repeated(PIECE, 0, 65_536)
}

/// Some 20 KB of constants, records and lists, their names, literals and
/// comments in Japanese.
fn japanese_tariff() -> String {
    const PIECE: &str = r#"
// 第#地域の料率。二〇二六年一月一日から有効。
record 地域# { 名称: String, 基本料率: u32, 都道府県: List[String], 備考: String? }

const 第_#: 地域# = 地域# { 名称: "第#地域の火災保険", 基本料率: 1200 + # * 3,
    都道府県: ["東京都", "神奈川県", "埼玉県", "千葉県", "茨城県", "栃木県"], // 最初の六つ
    備考: none };

fn 保険料_#(口数: u32, 料率: 地域#, 割引: u32) -> u32 {
    let 基本 = 料率.基本料率 * 口数 - 割引 / 2;
    if 口数 >= 100 { return 基本 - 基本 / 10; }
    基本
}
"#;
    repeated(PIECE, 0, 20_000)
}

/// Calls in lists in calls, whose lines end near column 80.
fn deep_calls() -> String {
    fn value(depth: usize, width: usize) -> String {
        if depth == 0 {
            return "x".repeat(width);
        }
        let inner = value(depth - 1, width);
        match depth % 3 {
            0 => format!("[{inner}, {}]", "y".repeat(width)),
            1 => format!("store.of_{depth}.get({inner})"),
            _ => format!("call_{depth}({inner}, {})", "z".repeat(width / 2)),
        }
    }
    let mut out = String::new();
    for copy in 0..60 {
        let depth = 2 + copy % 15;
        let name = "n".repeat(1 + copy % 9);
        let value = value(depth, 3 + copy % 7);
        out += &format!("const {name}: u32 = {value};\n");
    }
    out
}

/// Generated files with any spans, comments in order, and any widths.
fn wild() -> Input {
    const FILES: usize = 100;
    let frames = generate::frames(Class::Wild, 7, 2 * FILES as u64);
    let file = |bytes: Vec<u8>| {
        let frame = frame::split_any_size(&bytes).ok()?;
        reader::read(frame.source, frame.image).ok()?;
        Some(File {
            source: frame.source.to_vec(),
            image: frame.image.to_vec(),
        })
    };
    Input {
        name: "wild spans (100 files)".into(),
        files: frames.filter_map(file).take(FILES).collect(),
    }
}

/// Constants whose values are sums of paths and lists, in images of growing
/// size.
pub fn growing() -> Vec<Input> {
    let sizes = [1 << 10, 1 << 12, 1 << 14, 1 << 16, 1 << 18, 1 << 20];
    let input = |bytes| Input {
        name: format!("image of {} KB", bytes >> 10),
        files: vec![File {
            source: vec![],
            image: image_of(bytes),
        }],
    };
    sizes.map(input).into()
}

/// A list of sums of products of names, in which most records are operators
/// and names, and which is read back the same.
pub fn operators() -> Input {
    const COUNT: usize = 3_000;
    let name = || node(56, 0..0, [Some(node(4, 0..0, [Some(letter())]))]);
    let operation = |left: Tree, place: u8, right: Tree| {
        let operator = chosen(86, 0..0, place, []);
        node(63, 0..0, [left, operator, right].map(Some))
    };
    let product = || operation(name(), 10, name());
    let sum = || operation(product(), 8, product());
    let elements = (0..COUNT).map(|_| Some(sum()));
    let value = node(59, 0..0, [Some(node(3, 0..0, elements))]);
    let constant = [letter(), node(42, 0..0, []), value];
    let image =
        image::write(&[], &tree(vec![node(11, 0..0, constant.map(Some))]));
    Input {
        name: format!("operators ({} KB of image)", image.len() >> 10),
        files: vec![File {
            source: vec![],
            image,
        }],
    }
}

fn letter() -> Tree {
    text(0..0, 1, "a")
}

fn image_of(bytes: usize) -> Vec<u8> {
    let one = declaration();
    let each = image::write(&[], &tree(vec![one.clone()])).len() - 24;
    image::write(&[], &tree(vec![one; bytes.saturating_sub(64) / each]))
}

fn tree(declarations: Vec<Tree>) -> Tree {
    let shebang = std::iter::once(None);
    node(1, 0..0, shebang.chain(declarations.into_iter().map(Some)))
}

fn declaration() -> Tree {
    let operator = chosen(86, 0..0, 8, []);
    let value = node(63, 0..0, [path(), operator, list()].map(Some));
    let name = text(0..0, 6, "factor");
    node(11, 0..0, [name, node(42, 0..0, []), value].map(Some))
}

fn path() -> Tree {
    let names = [text(0..0, 7, "storeys"), text(0..0, 4, "roof")];
    node(56, 0..0, [Some(node(4, 0..0, names.map(Some)))])
}

fn list() -> Tree {
    let elements = vec![Some(path()); 3];
    node(59, 0..0, [Some(node(3, 0..0, elements))])
}
