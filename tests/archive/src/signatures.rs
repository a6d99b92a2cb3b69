//! Functions with the types that go over, as the header, the crate for Rust and the Rattle sources declare them.

use std::collections::BTreeMap;

/// For each function its parameters: a name, and a type as Rust writes it.
pub type Signatures = BTreeMap<String, Vec<(String, String)>>;

/// `int64_t gasplan_read(const uint8_t *bytes, size_t bytes_len, ..);`
pub fn of_c(text: &str) -> Signatures {
    between(text, "\nint64_t gasplan_", ");", |parameter| {
        let (kind, name) = parameter.rsplit_once([' ', '*']).expect(parameter);
        let pointer = parameter.contains('*');
        let plain = kind.replace("const", "").replace('*', "");
        let plain = match plain.trim() {
            "uint8_t" => "u8",
            "int64_t" => "i64",
            "size_t" => "usize",
            other => panic!("{other}"),
        };
        let kind = match (pointer, parameter.starts_with("const ")) {
            (true, true) => format!("*const {plain}"),
            (true, false) => format!("*mut {plain}"),
            (false, _) => plain.to_string(),
        };
        vec![(name.to_string(), kind)]
    })
}

/// `fn gasplan_read(bytes: *const u8, bytes_len: usize, ..) -> i64;`
pub fn of_rust(text: &str) -> Signatures {
    between(text, "    fn gasplan_", ") -> i64;", |parameter| {
        let (name, kind) = parameter.split_once(": ").expect(parameter);
        vec![(name.to_string(), kind.to_string())]
    })
}

/// `pub extern "C" fn gasplan_read(bytes: &[u8], list: &mut [i64], ..) -> i64`, where a slice is a pointer and a count.
pub fn of_rattle(text: &str) -> Signatures {
    between(
        text,
        "pub extern \"C\" fn gasplan_",
        ") -> i64",
        |parameter| {
            let (name, kind) = parameter.split_once(": ").expect(parameter);
            let slice = match kind {
                "&[u8]" => "*const u8",
                "&[i64]" => "*const i64",
                "&mut [u8]" => "*mut u8",
                "&mut [i64]" => "*mut i64",
                "i64" => return vec![(name.to_string(), kind.to_string())],
                other => panic!("{other}"),
            };
            let count = (format!("{name}_len"), "usize".to_string());
            vec![(name.to_string(), slice.to_string()), count]
        },
    )
}

/// The declarations that begin and end so, their parameters taken one by one.
fn between(
    text: &str,
    begin: &str,
    end: &str,
    take: fn(&str) -> Vec<(String, String)>,
) -> Signatures {
    let declarations = text.split(begin).skip(1);
    declarations
        .map(|declaration| {
            let (name, rest) = declaration.split_once('(').expect("parameters");
            let (parameters, _) = rest.split_once(end).expect("an end");
            let parameters = parameters.split(',').map(str::trim);
            let parameters = parameters.filter(|parameter| !parameter.is_empty());
            (name.to_string(), parameters.flat_map(take).collect())
        })
        .collect()
}
