//! The search for names that print alike: ours, and the same as a Rust program over the original's Module.

use original::bytecode::Module;
use original::RuntimeType;
use std::collections::HashMap;
use std::sync::LazyLock;
use vob::raw::vob_alike_names;

/// Each mark with letters, and with the letters from U+00C0 to U+017F that decompose into these and the mark.
const DECOMPOSITIONS: [(char, &str, &str); 13] = [
    ('\u{300}', "AEIOUaeiou", "ÀÈÌÒÙàèìòù"),
    ('\u{301}', "AEIOUYaeiouyCcLlNnRrSsZz", "ÁÉÍÓÚÝáéíóúýĆćĹĺŃńŔŕŚśŹź"),
    ('\u{302}', "AEIOUaeiouCcGgHhJjSsWwYy", "ÂÊÎÔÛâêîôûĈĉĜĝĤĥĴĵŜŝŴŵŶŷ"),
    ('\u{303}', "ANOanoIiUu", "ÃÑÕãñõĨĩŨũ"),
    ('\u{304}', "AaEeIiOoUu", "ĀāĒēĪīŌōŪū"),
    ('\u{306}', "AaEeGgIiOoUu", "ĂăĔĕĞğĬĭŎŏŬŭ"),
    ('\u{307}', "CcEeGgIZz", "ĊċĖėĠġİŻż"),
    ('\u{308}', "AEIOUaeiouyY", "ÄËÏÖÜäëïöüÿŸ"),
    ('\u{30a}', "AaUu", "ÅåŮů"),
    ('\u{30b}', "OoUu", "ŐőŰű"),
    ('\u{30c}', "CcDdEeLlNnRrSsTtZz", "ČčĎďĚěĽľŇňŘřŠšŤťŽž"),
    ('\u{327}', "CcGgKkLlNnRrSsTt", "ÇçĢģĶķĻļŅņŖŗŞşŢţ"),
    ('\u{328}', "AaEeIiUu", "ĄąĘęĮįŲų"),
];

const FIRST_LETTER: usize = 0xc0;

/// The decomposition of each letter of the range, where it has one.
static DECOMPOSED: LazyLock<[Option<(char, char)>; 192]> = LazyLock::new(|| {
    let mut decomposed = [None; 192];
    for (mark, letters, composed) in DECOMPOSITIONS {
        for (letter, composed) in letters.chars().zip(composed.chars()) {
            decomposed[composed as usize - FIRST_LETTER] = Some((letter, mark));
        }
    }
    decomposed
});

/// The name with its letters decomposed: the same for two names exactly if they print alike.
pub fn folded(name: &str) -> String {
    let decomposed = &*DECOMPOSED;
    let mut folded = String::with_capacity(name.len() + name.len() / 2);
    for character in name.chars() {
        match (character as usize).checked_sub(FIRST_LETTER).and_then(|letter| *decomposed.get(letter)?) {
            Some((letter, mark)) => folded.extend([letter, mark]),
            None => folded.push(character),
        }
    }
    folded
}

/// The first name of a table that prints as one before it, and that one.
fn pair<'a>(names: impl ExactSizeIterator<Item = &'a String>) -> Option<[&'a String; 2]> {
    let mut seen = HashMap::with_capacity(names.len());
    for name in names {
        if let Some(earlier) = seen.insert(folded(name), name) {
            return Some([earlier, name]);
        }
    }
    None
}

/// A Module does not keep where its names stand in the pack, so the answer has the names themselves.
fn alike(module: &Module) -> Option<[&String; 2]> {
    let fields = module.struct_metas.iter().find_map(|of| {
        let names: Vec<&String> = of.fields.iter().map(|field| &field.name).filter(|name| *name != "_").collect();
        pair(names.into_iter())
    });
    let interfaces = || {
        module
            .interface_metas
            .iter()
            .find_map(|of| pair(of.method_names.iter()).or_else(|| pair(of.methods.iter().map(|method| &method.name))))
    };
    let named = || module.named_type_metas.iter().find_map(|of| pair(of.methods.keys()));
    let runtime = || {
        module.runtime_types.iter().find_map(|of| match of {
            RuntimeType::Interface { methods, .. } => pair(methods.iter().map(|method| &method.name)),
            _ => None,
        })
    };
    fields.or_else(interfaces).or_else(named).or_else(runtime)
}

/// No pack that is measured has a pair, so that the search goes through all of it.
#[inline(never)]
pub fn ours(pack: &[u8]) -> u64 {
    // SAFETY: the pack lives through the call, which writes nothing.
    let answer = unsafe { vob_alike_names(pack.as_ptr(), pack.len()) };
    assert_eq!((answer.number, answer.values), (0, [0; 5]));
    answer.values[0]
}

#[inline(never)]
pub fn rust(pack: &[u8]) -> Module {
    let module = crate::rust(pack);
    assert_eq!(alike(&module), None);
    module
}
