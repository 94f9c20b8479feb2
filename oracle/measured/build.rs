use prepare::Patch;

const FILE: &str = "serialize.rs";

const fn patch(old: &'static str, new: &'static str) -> Patch {
    Patch { file: FILE, old, new }
}

/// Only a starting budget and reports are added; no line that decides anything changes.
const PATCHES: &[Patch] = &[
    // The starting budget.
    patch(
        "            allocation_remaining: MAX_VOB_DECODE_ALLOCATION_BYTES,\n",
        "            allocation_remaining: crate::report::budget(),\n",
    ),
    // Place and budget when reading ends, in whichever way.
    patch(
        "    allocation_remaining: usize,\n}\n",
        "    allocation_remaining: usize,\n}\n\nimpl Drop for ByteReader<'_> {\n    fn drop(&mut self) {\n        crate::report::end(self.pos, self.allocation_remaining);\n    }\n}\n",
    ),
    // Each charge, where its refusal would stand.
    patch(
        "        if requested > self.allocation_remaining {\n",
        "        crate::report::charge(context, requested, self.pos);\n        if requested > self.allocation_remaining {\n",
    ),
    // Each text and payload, with the line of serialize.rs that asked for it.
    patch(
        "    fn read_string(&mut self) -> Result<String, SerializeError> {\n",
        "    #[track_caller]\n    fn read_string(&mut self) -> Result<String, SerializeError> {\n",
    ),
    patch(
        "    fn read_bytes(&mut self) -> Result<Vec<u8>, SerializeError> {\n",
        "    #[track_caller]\n    fn read_bytes(&mut self) -> Result<Vec<u8>, SerializeError> {\n",
    ),
    patch(
        "        self.charge_allocation(\"byte string\", len)?;\n",
        "        self.charge_allocation(\"byte string\", len)?;\n        crate::report::span(self.pos - len, len);\n",
    ),
    patch("    fn read_artifact_bytes(\n", "    #[track_caller]\n    fn read_artifact_bytes(\n"),
    patch("    fn read_artifact_string(\n", "    #[track_caller]\n    fn read_artifact_string(\n"),
    patch(
        "        self.charge_allocation(context, len)?;\n",
        "        self.charge_allocation(context, len)?;\n        crate::report::span(self.pos - len, len);\n",
    ),
    // Place and budget where each of the seventeen sections starts.
    patch(
        "        let name = r.read_string()?;\n\n        let struct_metas = r.read_vec(|r| {\n",
        "        crate::report::section(r.pos, r.allocation_remaining);\n        let name = r.read_string()?;\n\n        crate::report::section(r.pos, r.allocation_remaining);\n        let struct_metas = r.read_vec(|r| {\n",
    ),
    patch(
        "        let interface_metas = r.read_vec(|r| {\n            let name",
        "        crate::report::section(r.pos, r.allocation_remaining);\n        let interface_metas = r.read_vec(|r| {\n            let name",
    ),
    patch(
        "        let named_type_metas = r.read_vec(|r| {\n",
        "        crate::report::section(r.pos, r.allocation_remaining);\n        let named_type_metas = r.read_vec(|r| {\n",
    ),
    patch(
        "        let itabs = r.read_vec(|r| {\n",
        "        crate::report::section(r.pos, r.allocation_remaining);\n        let itabs = r.read_vec(|r| {\n",
    ),
    patch(
        "        let runtime_types = r.read_vec(|r| read_runtime_type(r))?;\n",
        "        crate::report::section(r.pos, r.allocation_remaining);\n        let runtime_types = r.read_vec(|r| read_runtime_type(r))?;\n",
    ),
    patch(
        "        let well_known = WellKnownTypes {\n",
        "        crate::report::section(r.pos, r.allocation_remaining);\n        let well_known = WellKnownTypes {\n",
    ),
    patch(
        "        let constants = r.read_vec(|r| {\n",
        "        crate::report::section(r.pos, r.allocation_remaining);\n        let constants = r.read_vec(|r| {\n",
    ),
    patch(
        "        let globals = r.read_vec(|r| {\n",
        "        crate::report::section(r.pos, r.allocation_remaining);\n        let globals = r.read_vec(|r| {\n",
    ),
    patch(
        "        let functions = r.read_vec(|r| {\n",
        "        crate::report::section(r.pos, r.allocation_remaining);\n        let functions = r.read_vec(|r| {\n",
    ),
    patch(
        "        let externs = r.read_vec(|r| {\n",
        "        crate::report::section(r.pos, r.allocation_remaining);\n        let externs = r.read_vec(|r| {\n",
    ),
    patch(
        "        let entry_func = r.read_u32()?;\n        let island_init_func = r.read_u32()?;\n",
        "        crate::report::section(r.pos, r.allocation_remaining);\n        let entry_func = r.read_u32()?;\n        crate::report::section(r.pos, r.allocation_remaining);\n        let island_init_func = r.read_u32()?;\n",
    ),
    patch(
        "        let artifact_count = r.read_u32()? as usize;\n",
        "        crate::report::section(r.pos, r.allocation_remaining);\n        let artifact_count = r.read_u32()? as usize;\n",
    ),
    patch(
        "        let files = r.read_vec(|r| r.read_string())?;\n        let funcs = r.read_vec(|r| {\n",
        "        crate::report::section(r.pos, r.allocation_remaining);\n        let files = r.read_vec(|r| r.read_string())?;\n        crate::report::section(r.pos, r.allocation_remaining);\n        let funcs = r.read_vec(|r| {\n",
    ),
    patch(
        "        let inline_sources = read_inline_sources(&mut r, functions.len())?;\n",
        "        crate::report::section(r.pos, r.allocation_remaining);\n        let inline_sources = read_inline_sources(&mut r, functions.len())?;\n",
    ),
];

/// The lines of the reading half that read a text or payload, in file order, and the name of what they read.
const SITES: [(&str, &str); 20] = [
    ("let name = r.read_string()?;", "RuntimeFieldName"),
    ("let tag = r.read_string()?;", "RuntimeFieldTag"),
    ("let pkg = r.read_string()?;", "RuntimeFieldPackage"),
    ("let name = r.read_string()?;", "RuntimeMethodName"),
    // Inside ByteReader: reported under its caller's line, so it has no name of its own.
    ("String::from_utf8(self.read_artifact_bytes(context, max)?)", ""),
    ("let name = r.read_string()?;", "ModuleName"),
    ("let name = r.read_string()?;", "StructFieldName"),
    ("Some(r.read_string()?)", "StructFieldTag"),
    ("let name = r.read_string()?;", "InterfaceName"),
    ("let method_names = r.read_vec(|r| r.read_string())?;", "InterfaceMethodName"),
    ("let name = r.read_string()?;", "InterfaceMethod"),
    ("let name = r.read_string()?;", "NamedTypeName"),
    ("let n = r.read_string()?;", "NamedMethod"),
    ("4 => Ok(Constant::String(r.read_string()?)),", "ConstantText"),
    ("let name = r.read_string()?;", "GlobalName"),
    ("let name = r.read_string()?;", "FunctionName"),
    ("let name = r.read_string()?;", "ExternName"),
    ("r.read_artifact_string(\"Module.artifacts[].name\", MAX_MODULE_ARTIFACT_NAME_BYTES)?;", "ArtifactName"),
    ("let payload = r.read_artifact_bytes(", "ArtifactPayload"),
    ("let files = r.read_vec(|r| r.read_string())?;", "FileName"),
];

fn main() {
    let text = prepare::write(PATCHES);
    let calls: Vec<(usize, &str)> = text
        .lines()
        .enumerate()
        .map(|(index, line)| (index + 1, line.trim()))
        .filter(|(_, line)| {
            ["r.read_string()", "read_artifact_string(\"", ".read_artifact_bytes("]
                .iter()
                .any(|call| line.contains(call))
        })
        .collect();
    let found: Vec<&str> = calls.iter().map(|(_, line)| *line).collect();
    let wanted: Vec<&str> = SITES.iter().map(|(line, _)| *line).collect();
    prepare::expect(found == wanted, &format!("The calls that read texts have moved; found\n{}", found.join("\n")));

    let mut out = String::from("#[derive(Clone, Copy, Debug, PartialEq, Eq)]\npub enum Site {\n");
    let named = || calls.iter().zip(&SITES).filter(|(_, (_, name))| !name.is_empty());
    for (_, (_, name)) in named() {
        out.push_str(&format!("    {name},\n"));
    }
    out.push_str("}\n\npub fn site(line: u32) -> Site {\n    match line {\n");
    for ((line, _), (_, name)) in named() {
        out.push_str(&format!("        {line} => Site::{name},\n"));
    }
    out.push_str("        _ => panic!(\"no text is read at line {line}\"),\n    }\n}\n");
    let path = std::path::Path::new(&std::env::var("OUT_DIR").expect("cargo sets OUT_DIR")).join("sites.rs");
    std::fs::write(path, out).expect("OUT_DIR can be written");
}
