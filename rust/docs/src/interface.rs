//! The C boundary: the functions that the Rattle crate `razvolk` exports and the structures that they hand over, as
//! include/razvolk.h and the Rust crate declare them. All are read as text, and written alike:
//! `name(argument: type, ..) -> type`, with slices as Rattle and Rust have them, and `Name { field: type, .. }`.

/// What Rattle's source exports.
pub fn exports(rattle: &str) -> Vec<String> {
    rattle.split("pub extern \"C\" fn ").skip(1).filter_map(signature).collect()
}

/// What rust/src/ffi.rs declares.
pub fn declared(ffi: &str) -> Vec<String> {
    let lines = ffi.split_once("exports! {").map_or("", |(_, lines)| lines);
    lines.split("fn ").skip(1).filter_map(signature).collect()
}

/// `name(..) -> type` at the start of a text.
fn signature(text: &str) -> Option<String> {
    let (name, rest) = text.split_once('(')?;
    let (arguments, rest) = rest.split_once(')')?;
    let out = rest.trim_start().strip_prefix("->")?.trim_start();
    let out = out.split(|c: char| !c.is_alphanumeric()).next()?;
    let arguments: Vec<&str> = arguments.split(',').map(str::trim).filter(|one| !one.is_empty()).collect();
    Some(format!("{name}({}) -> {out}", arguments.join(", ")))
}

/// The structures that are laid out as C does it, of Rattle's source or Rust's.
pub fn structures(source: &str) -> Vec<String> {
    let code: String =
        source.lines().filter(|line| !line.trim_start().starts_with("//")).map(|l| format!("{l}\n")).collect();
    let each = code.split("#[repr(C)]").skip(1).filter_map(|text| text.split_once("struct ")?.1.split_once('}'));
    let parted = each.filter_map(|(text, _)| text.split_once('{'));
    parted
        .map(|(name, fields)| {
            structure(name, fields.split(',').map(|field| field.trim().trim_start_matches("pub ").into()))
        })
        .collect()
}

fn structure(name: &str, fields: impl Iterator<Item = String>) -> String {
    let fields: Vec<String> = fields.filter(|field| !field.is_empty()).collect();
    format!("{} {{ {} }}", name.trim(), fields.join(", "))
}

/// A header's functions.
pub fn functions_of_c(header: &str) -> Vec<String> {
    let code = bare(header);
    let statements = code.split([';', '{', '}']).filter(|text| text.contains('(') && text.contains("razvolk_"));
    statements.filter_map(|text| function_of_c(text.trim())).collect()
}

/// A header's structures: `typedef struct { .. } razvolk_name;`.
pub fn structures_of_c(header: &str) -> Vec<String> {
    let code = bare(header);
    let each = code.split("typedef struct {").skip(1).filter_map(|text| text.split_once('}'));
    each.filter_map(|(fields, rest)| {
        let fields = fields.split(';').filter_map(|field| field.trim().rsplit_once(' '));
        let fields = fields.map(|(kind, name)| format!("{name}: {}", kind_of_c(kind)));
        Some(structure(&kind_of_c(rest.split_once(';')?.0.trim()), fields))
    })
    .collect()
}

/// A header without comments and the lines of the preprocessor.
fn bare(header: &str) -> String {
    let mut parts = header.split("/*");
    let mut code = parts.next().unwrap_or_default().to_string();
    code.extend(parts.filter_map(|part| Some(part.split_once("*/")?.1)));
    let mut lines: Vec<&str> = Vec::new();
    let mut continued = false;
    for line in code.lines() {
        if !continued && !line.trim_start().starts_with('#') {
            lines.push(line);
        }
        continued = (continued || line.trim_start().starts_with('#')) && line.ends_with('\\');
    }
    lines.join("\n")
}

fn function_of_c(text: &str) -> Option<String> {
    let (head, arguments) = text.strip_suffix(')')?.split_once('(')?;
    let (out, name) = head.rsplit_once(char::is_whitespace)?;
    let arguments: Vec<String> =
        arguments.split(',').map(|one| one.split_whitespace().collect::<Vec<_>>().join(" ")).collect();
    let mut written = Vec::new();
    let mut rest = arguments.iter();
    while let Some(argument) = rest.next() {
        let (kind, name) = argument.rsplit_once([' ', '*'])?;
        let Some(kind) = kind.strip_suffix('*').or(argument.contains('*').then_some(kind)) else {
            written.push(format!("{name}: {}", kind_of_c(kind)));
            continue;
        };
        // A pointer is a slice's, with the length after it.
        rest.next().filter(|length| **length == format!("size_t {name}_len"))?;
        written.push(match kind.trim().strip_prefix("const ") {
            Some(kind) => format!("{name}: &[{}]", kind_of_c(kind)),
            None => format!("{name}: &mut [{}]", kind_of_c(kind)),
        });
    }
    Some(format!("{name}({}) -> {}", written.join(", "), kind_of_c(out)))
}

/// A type of C by its name in Rust: `uint8_t` is `u8`, `razvolk_answer` is `Answer`.
fn kind_of_c(kind: &str) -> String {
    match kind.trim() {
        "size_t" => "usize".into(),
        kind => {
            match (kind.strip_prefix("razvolk_"), kind.strip_prefix("uint").and_then(|kind| kind.strip_suffix("_t"))) {
                (Some(name), _) => name.split('_').map(capital).collect(),
                (_, Some(bits)) => format!("u{bits}"),
                _ => kind.into(),
            }
        }
    }
}

fn capital(word: &str) -> String {
    word.chars().take(1).flat_map(char::to_uppercase).chain(word.chars().skip(1)).collect()
}

#[cfg(test)]
mod tests {
    use super::*;

    const RATTLE: &str = "\
#[unsafe(no_mangle)]
pub extern \"C\" fn razvolk_decode(
    src: &[u8],
    width: usize,
    samples: &mut [u16],
) -> Answer
    ensures answered { result.number ≡ answer src.now }
    ensures left { length samples.new ≡ length samples.old }
{
    decode(src, width, samples)
}
#[unsafe(no_mangle)]
pub extern \"C\" fn razvolk_reset_at(state: Bits, pos: u64) -> Bits {
";
    const FFI: &str = "\
        pub(crate) fn $name() -> $out {
exports! {
    fn razvolk_decode(
        src: &[u8], width: usize, samples: &mut [u16]) -> Answer;
    fn razvolk_reset_at(state: Bits, pos: u64) -> Bits;
}
";
    const HEADER: &str = "\
/* Words with razvolk_words(in them); */
#ifdef __cplusplus
extern \"C\" {
#endif
#define RAZVOLK_SCRATCH(width) \\
    ((width) + 1)
typedef struct {
    uint32_t number; /* a number */
    bool overrun;
} razvolk_long_answer;
razvolk_answer razvolk_decode(const uint8_t *src, size_t src_len, size_t width,
                              uint16_t *samples, size_t samples_len);
razvolk_bits razvolk_reset_at(razvolk_bits state, uint64_t pos);
";

    #[test]
    fn functions_are_read_alike() {
        let functions = [
            "razvolk_decode(src: &[u8], width: usize, samples: &mut [u16]) -> Answer",
            "razvolk_reset_at(state: Bits, pos: u64) -> Bits",
        ];
        assert_eq!(exports(RATTLE), functions);
        assert_eq!(declared(FFI), functions);
        assert_eq!(functions_of_c(HEADER), functions);
    }

    #[test]
    fn a_function_that_is_declared_otherwise_shows() {
        let other = |from: &str, to: &str| functions_of_c(&HEADER.replacen(from, to, 1)) != functions_of_c(HEADER);
        assert!(other("const uint8_t *src", "uint8_t *src"), "written to");
        assert!(other("size_t width", "uint32_t width"), "another width");
        assert!(other("size_t src_len, size_t width", "size_t width, size_t src_len"), "another order");
        assert!(other("size_t samples_len", "size_t map_len"), "another length");
        assert!(other("razvolk_answer razvolk_decode", "uint32_t razvolk_decode"), "another answer");
        assert!(other("uint64_t pos", "uint64_t position"), "another name");
    }

    #[test]
    fn structures_are_read_alike() {
        let rust = "#[repr(C)]\n#[derive(Clone, Copy)]\npub(crate) struct LongAnswer {\n    /// A number, of many.\n    pub number: u32,\n    overrun: bool,\n}\n";
        assert_eq!(structures(rust), ["LongAnswer { number: u32, overrun: bool }"]);
        assert_eq!(structures_of_c(HEADER), structures(rust));
    }
}
