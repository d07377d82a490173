//! Colours and the style sheet. Nothing is told by colour alone: owners have numbers, losses crosses.

use std::fmt::Write;

/// Okabe and Ito's colours, which also the colour-blind can tell apart; from box 9 on they are used again.
const OWNERS: [[u8; 3]; 8] = [
    [0xe6, 0x9f, 0x00],
    [0x56, 0xb4, 0xe9],
    [0x00, 0x9e, 0x73],
    [0xf0, 0xe4, 0x42],
    [0x00, 0x72, 0xb2],
    [0xd5, 0x5e, 0x00],
    [0xcc, 0x79, 0xa7],
    [0x99, 0x99, 0x99],
];

/// The class of a slot's cell by its owner: free, owned, or owned by whom the schedule is of.
pub fn cell(owner: u8, own: bool) -> String {
    match (owner, own) {
        (0, _) => "free".to_string(),
        (owner, true) => format!("own w{}", (owner - 1) % 8),
        (owner, false) => format!("cell c{}", (owner - 1) % 8),
    }
}

/// The class of a box's bars.
pub fn bar(node: u32) -> String {
    format!("w{}", (node - 1) % 8)
}

fn towards_white(colour: [u8; 3], part: f64) -> String {
    let mix = |value: u8| (f64::from(value) + (255.0 - f64::from(value)) * part).round() as u8;
    let [r, g, b] = colour.map(mix);
    format!("#{r:02x}{g:02x}{b:02x}")
}

/// What drawings need, wherever they stand.
pub fn drawings() -> String {
    let mut out = String::from(
        "text{font:12px Arial,\"Liberation Sans\",Helvetica,sans-serif;fill:#111}\
         text.s{font-size:11px}text.l{font-size:10.5px}text.h{font-size:13px}text.b{font-weight:bold}\
         text.m{text-anchor:middle}text.e{text-anchor:end}text.g{fill:#444}text.i{fill:#fff}text.o{paint-order:stroke;stroke:#fff;stroke-width:4px}\
         path,circle,rect{fill:none;stroke:#111}\
         .band{fill:#ededed;stroke:none}.life{stroke:#666}.wait{stroke:#666;stroke-dasharray:3 3}\
         .arrow{stroke-width:1.5}.head{fill:#111;stroke:none}.hollow{fill:#fff;stroke-width:1.3}\
         .loss{stroke:#b02a00;stroke-width:2}.lost{stroke:#b02a00;stroke-dasharray:4 3}\
         .packet{fill:#fff;stroke-width:1.5}.again{fill:#fff;stroke-dasharray:2 2}\
         .quiet{stroke:#666;stroke-dasharray:1 2}.thin{stroke-width:.8}.thick{stroke-width:3}.dash{stroke-dasharray:6 4}\
         .sends{fill:#fff;stroke-width:2}.silent{fill:#fff;stroke-dasharray:4 3}.later{fill:#fff;stroke-width:1.3}\
         .plain{fill:#fff}.black{fill:#111;stroke:none}.grey{fill:#999;stroke:none}\
         .refused{fill:#fff;stroke:#b02a00;stroke-width:1.5}.alarm{fill:#b02a00;stroke:none}\
         .free{fill:#fff;stroke:#888;stroke-width:.8}.cell{stroke:#777;stroke-width:.8}.own{stroke-width:2}.stranger{fill:#fff;stroke-width:1.2}\
         .none{fill:#fff;stroke-dasharray:2 2}.gap{stroke-dasharray:2 2}.heard{fill:#44617f;stroke:none}.noted{fill:#dfe6ee;stroke:#44617f;stroke-width:.8}\
         .mute{fill:#f4f4f4;stroke:none}.hatch{stroke:#888}.grid{stroke:#ddd}.bars{fill:#555;stroke:none}",
    );
    for (at, colour) in OWNERS.iter().enumerate() {
        let _ = write!(
            out,
            ".c{at}{{fill:{}}}.w{at}{{fill:{}}}",
            towards_white(*colour, 0.58),
            towards_white(*colour, 0.1)
        );
    }
    out
}

/// What the page needs around them. The drawings are as wide as the page; an epoch is not parted between printed pages.
pub const PAGE: &str = "\
    html{color-scheme:light}\
    body{max-width:1080px;margin:auto;padding:16px;background:#fff;color:#111;\
    font:15px/1.45 Arial,\"Liberation Sans\",Helvetica,sans-serif}\
    h1{margin:.2em 0;font-size:24px}h2{margin:.3em 0 .2em;font-size:18px}\
    p,ul{margin:.35em 0;max-width:60em}ul{padding-left:1.2em;columns:22em;column-gap:2.4em}a{color:#0b3d91}\
    svg{display:block;margin:.3em 0;width:100%;height:auto}\
    section{margin-top:14px;padding-top:2px;border-top:3px solid #111;break-inside:avoid}\
    table{margin:.5em 0;border-collapse:collapse;font-size:13px;line-height:1.25;font-variant-numeric:tabular-nums}.zero{color:#767676}\
    th,td{padding:2px 0 2px 9px;border-bottom:1px solid #bbb;text-align:right;vertical-align:bottom}\
    .epochs td:last-child,.epochs th:last-child{text-align:left}.hit{fill:#fff;stroke:none}.slots{margin:0 0 .5em;font-size:12px;break-inside:avoid}.slots th,.slots td{padding-left:5px;min-width:15px}\
    @media print{body{max-width:none;padding:0;font-size:10pt;print-color-adjust:exact;-webkit-print-color-adjust:exact}\
    h1,h2,h2+p{break-after:avoid}svg{max-height:96vh}p+section{break-inside:auto}p+section>svg{max-height:78vh}#overview{break-inside:auto}svg,tr,li,.sums{break-inside:avoid}p{orphans:3;widows:3}\
    table{font-size:8.5pt}.slots{font-size:7.5pt}a{color:#111}}\
    @page{margin:12mm}";
