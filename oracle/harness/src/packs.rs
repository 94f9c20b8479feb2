//! Packs made by the Rust's own writer: small ones for each part of the format, one with everything, random ones by
//! seed and large ones of a wanted size.

use original::bytecode::*;
use original::debug_info::*;
use original::instruction::Instruction;
use original::runtime_type::{ChanDir, InterfaceMethod, StructField};
use original::types::{SlotType, ValueKind, ValueMeta, ValueRttid};
use original::RuntimeType;
use std::collections::BTreeMap;

pub struct Pack {
    pub label: String,
    pub bytes: Vec<u8>,
    /// The section that is not bare (1 to 17), 0 where several are filled.
    pub section: usize,
}

pub fn bytes_of(module: &Module) -> Vec<u8> {
    module.serialize().expect("the Rust writes this module")
}

fn module() -> Module {
    Module::new(String::new())
}

const ALL_SLOTS: [SlotType; 6] =
    [SlotType::Value, SlotType::GcBase, SlotType::GcRef, SlotType::Interface0, SlotType::Interface1, SlotType::Float];

fn kind(n: u64) -> ValueKind {
    ValueKind::from_u8((n % 25) as u8)
}

fn rttid(id: u32, kind: ValueKind) -> ValueRttid {
    ValueRttid::new(id, kind)
}

fn field(name: &str, tag: Option<&str>, embedded: bool) -> FieldMeta {
    FieldMeta {
        name: name.to_string(),
        offset: 0x0201,
        slot_count: 0x0403,
        type_info: rttid(0x0A0B0C, ValueKind::Struct),
        embedded,
        tag: tag.map(str::to_string),
    }
}

fn structure(slots: &[SlotType], fields: Vec<FieldMeta>) -> StructMeta {
    // The index is derived; the writer leaves it out.
    StructMeta { slot_types: slots.to_vec(), fields, field_index: Default::default() }
}

fn interface(name: &str, names: &[&str], methods: &[&str]) -> InterfaceMeta {
    InterfaceMeta {
        name: name.to_string(),
        method_names: names.iter().map(|n| n.to_string()).collect(),
        methods: methods
            .iter()
            .zip(7..)
            .map(|(n, signature_rttid)| InterfaceMethodMeta { name: n.to_string(), signature_rttid })
            .collect(),
    }
}

fn named(name: &str, methods: &[&str]) -> NamedTypeMeta {
    let method = |i: usize| MethodInfo {
        func_id: 0x01020304 + i as u32,
        is_pointer_receiver: i % 2 == 0,
        receiver_is_iface_boxed: i % 3 == 0,
        signature_rttid: 0xFFFFFFFF - i as u32,
    };
    NamedTypeMeta {
        name: name.to_string(),
        underlying_meta: ValueMeta::new(0xFFFFFE, ValueKind::Island),
        underlying_rttid: rttid(1, ValueKind::Pointer),
        methods: methods.iter().enumerate().map(|(i, n)| (n.to_string(), method(i))).collect(),
    }
}

fn struct_field(pkg: &str, name: &str, tag: &str, embedded: bool) -> StructField {
    StructField::new(name.to_string(), rttid(3, ValueKind::Int), tag.to_string(), embedded, pkg.to_string())
}

pub fn runtime_types() -> Vec<(&'static str, RuntimeType)> {
    use RuntimeType as T;
    let id = |n| rttid(n, ValueKind::String);
    let method = |n: &str| InterfaceMethod::new(n.to_string(), id(9));
    vec![
        ("basic", T::Basic(ValueKind::Float64)),
        ("named", T::Named { id: 0xFFFFFFFF, struct_meta_id: Some(0xFFFFFFFE) }),
        ("named without struct", T::Named { id: 5, struct_meta_id: None }),
        ("pointer", T::Pointer(id(1))),
        ("array", T::Array { len: 0x8070605040302010, elem: id(2) }),
        ("slice", T::Slice(id(3))),
        ("map", T::Map { key: id(4), val: id(5) }),
        ("channel", T::Chan { dir: ChanDir::Send, elem: id(6) }),
        ("port", T::Port { dir: ChanDir::Recv, elem: id(7) }),
        ("func", T::Func { params: vec![id(1), id(2)], results: vec![id(3), id(4)], variadic: true }),
        (
            "struct",
            T::Struct {
                meta_id: 8,
                fields: vec![
                    struct_field("p1", "f1", "t", true),
                    struct_field("p1", "f2", "", false),
                    struct_field("p2", "f1", "", false),
                    struct_field("p1", "_", "", false),
                    struct_field("p1", "_", "", false),
                ],
            },
        ),
        // Two pairs that only differ while they are not joined.
        (
            "struct with colons",
            T::Struct {
                meta_id: 9,
                fields: vec![struct_field("a", "b:c", "", false), struct_field("a:b", "c", "", false)],
            },
        ),
        ("interface", T::Interface { meta_id: 10, methods: vec![method("m1"), method("m2"), method("_")] }),
        ("tuple", T::Tuple(vec![id(1), id(2)])),
        ("island", T::Island),
    ]
}

pub fn metadata() -> Vec<(&'static str, InstructionMetadata)> {
    use InstructionMetadata as M;
    let one = || vec![SlotType::Float];
    let two = || vec![SlotType::Interface0, SlotType::Interface1];
    vec![
        ("none", M::None),
        ("element", M::ElemLayout { elem_bytes: 0x01020304, needs_sign_extend: true, slot_layout: two() }),
        ("map get", M::MapGet { key_layout: one(), val_layout: two(), has_ok: true }),
        ("map set", M::MapSet { key_layout: two(), val_layout: one() }),
        ("map delete", M::MapDelete { key_layout: two() }),
        ("loop end", M::LoopEnd { end_pc: 0xFEDCBA98 }),
        ("pointer", M::PtrLayout { value_layout: two() }),
        ("slot", M::SlotLayout { array_len: 0xABCD, elem_layout: two() }),
        ("call", M::CallLayout { arg_layout: two(), ret_layout: one() }),
        ("call extern", M::CallExternLayout { arg_layout: one(), ret_layout: two() }),
        ("queue", M::QueueLayout { elem_layout: two() }),
        ("map iterator", M::MapIterNext { key_layout: one(), val_layout: two() }),
        ("assert", M::IfaceAssertLayout { assert_kind: 1, target_id: 0x11223344, result_layout: two() }),
        ("map new", M::MapNew { key_layout: two(), val_layout: one() }),
        (
            "call interface",
            M::CallIfaceLayout { iface_meta_id: 1, method_idx: 0x80000000, arg_layout: one(), ret_layout: two() },
        ),
        (
            "select",
            M::SelectExecLayout {
                cases: vec![
                    SelectCaseLayout::Send { queue: 1, value: 0xFFFF, elem_slots: 3 },
                    SelectCaseLayout::Recv { destination: 4, queue: 5, elem_slots: 6, has_ok: true },
                    SelectCaseLayout::Recv { destination: 7, queue: 8, elem_slots: 9, has_ok: false },
                ],
            },
        ),
    ]
}

fn function(name: &str) -> FunctionDef {
    FunctionDef {
        name: name.to_string(),
        param_count: 0,
        param_slots: 0,
        local_slots: 0,
        ret_slots: 0,
        ret_slot_types: vec![],
        recv_slots: 0,
        heap_ret_gcref_count: 0,
        heap_ret_gcref_start: 0,
        heap_ret_slots: vec![],
        is_closure: false,
        error_ret_slot: 0,
        has_defer: false,
        has_calls: false,
        has_call_extern: false,
        code: vec![],
        instruction_metadata: vec![],
        slot_types: vec![],
        capture_types: vec![],
        capture_slot_types: vec![],
        param_types: vec![],
    }
}

fn code(count: usize) -> Vec<Instruction> {
    let step = |i: usize| Instruction { op: i as u8, flags: 0xFF - i as u8, a: 0x0102, b: 0x0304, c: 0xFFFE };
    (0..count).map(step).collect()
}

fn transfer(id: u32) -> TransferType {
    TransferType { meta_raw: id << 8 | 24, rttid_raw: id << 8 | 17, slots: 0x1234 }
}

fn rich_function() -> FunctionDef {
    FunctionDef {
        param_count: 1,
        param_slots: 2,
        local_slots: 3,
        ret_slots: 4,
        ret_slot_types: vec![SlotType::Value, SlotType::Float],
        recv_slots: 5,
        heap_ret_gcref_count: 6,
        heap_ret_gcref_start: 7,
        heap_ret_slots: vec![8, 0xFFFF],
        is_closure: true,
        error_ret_slot: -1,
        has_defer: true,
        code: code(1),
        instruction_metadata: vec![InstructionMetadata::None],
        slot_types: vec![SlotType::GcRef, SlotType::GcBase, SlotType::Value],
        capture_types: vec![transfer(0), transfer(0xFFFFFE)],
        capture_slot_types: vec![SlotType::Interface0, SlotType::Interface1],
        param_types: vec![transfer(1), transfer(2)],
        ..function("f")
    }
}

fn constants() -> Vec<(&'static str, Constant)> {
    vec![
        ("nil", Constant::Nil),
        ("bool", Constant::Bool(true)),
        ("int", Constant::Int(i64::MIN + 1)),
        ("minus one", Constant::Int(-1)),
        ("float", Constant::Float(-0.0)),
        ("float one", Constant::Float(1.0)),
        ("infinity", Constant::Float(f64::NEG_INFINITY)),
        ("quiet nan", Constant::Float(f64::from_bits(0xFFF8_0000_0000_0001))),
        ("signalling nan", Constant::Float(f64::from_bits(0x7FF0_0000_0000_0001))),
        ("subnormal", Constant::Float(f64::from_bits(1))),
        ("text", Constant::String("text".to_string())),
    ]
}

/// Names of one to four bytes a character, composed and decomposed accents.
pub const TEXTS: [&str; 10] = [
    "",
    "A",
    "_",
    "\u{e9}",
    "e\u{301}",
    "\u{20ac}",
    "\u{10ffff}",
    "A\u{e9}\u{20ac}\u{10348}",
    "\u{0}",
    "\u{7f}\u{80}\u{7ff}\u{800}\u{d7ff}\u{e000}\u{ffff}\u{10000}",
];

fn locations() -> Vec<FuncDebugInfo> {
    let loc = |pc, file_id, line, col, len| DebugLoc { pc, file_id, line, col, len };
    vec![
        FuncDebugInfo {
            entries: vec![loc(0, 1, 127, 128, 0x3FFF), loc(0x4000, 0x1F_FFFF, 0x20_0000, 0xFFF_FFFF, 0x1000_0000)],
        },
        FuncDebugInfo { entries: vec![] },
        FuncDebugInfo { entries: vec![loc(u32::MAX, 1, 2, 3, u32::MAX - 1)] },
    ]
}

fn inline_sources() -> InlineSources {
    let span = SourceSpan { file_id: 1, line: 2, col: 3, len: u32::MAX };
    let entry = |pc| InlineSourceEntry { pc, frame: pc + 1 };
    InlineSources {
        frames: vec![
            InlineSourceFrame { parent: u32::MAX, function_id: 1, span: Some(span) },
            InlineSourceFrame { parent: 0, function_id: 2, span: None },
        ],
        functions: vec![
            InlineFunctionSources { function_id: 3, entries: vec![entry(1), entry(2)] },
            InlineFunctionSources { function_id: 4, entries: vec![entry(3)] },
        ],
    }
}

fn well_known() -> WellKnownTypes {
    WellKnownTypes {
        error_named_type_id: Some(0),
        error_iface_meta_id: Some(1),
        error_ptr_rttid: Some(u32::MAX - 1),
        error_struct_meta_id: None,
        error_field_offsets: Some([0x0102, 0xFFFF]),
        attr_object_iface_id: Some(2),
        set_attr_object_iface_id: None,
        index_object_iface_id: Some(3),
        set_index_object_iface_id: Some(4),
        call_object_iface_id: Some(0x7FFFFFFF),
    }
}

/// Packs in which one section is filled; between them they hold every variant.
pub fn small() -> Vec<Pack> {
    let mut out = Vec::new();
    let mut add = |section: usize, label: &str, fill: &dyn Fn(&mut Module)| {
        let mut m = module();
        fill(&mut m);
        out.push(Pack { label: label.to_string(), bytes: bytes_of(&m), section });
    };
    for text in TEXTS {
        add(1, &format!("name {text:?}"), &|m| m.name = text.to_string());
    }
    add(2, "struct", &|m| {
        let fields = vec![
            field("a1", None, false),
            field("a2", Some("t"), true),
            field("_", None, false),
            field("_", Some(""), false),
        ];
        m.struct_metas = vec![structure(&ALL_SLOTS, fields)];
    });
    add(2, "structs", &|m| {
        m.struct_metas = vec![
            structure(&[], vec![]),
            structure(&[], vec![field("b", None, false)]),
            structure(
                &[SlotType::Float],
                vec![field("", None, false), field("b", None, false), field("c", None, false)],
            ),
        ];
    });
    add(2, "struct with accents", &|m| {
        m.struct_metas = vec![structure(&[], vec![field("\u{e9}", None, false), field("e\u{301}", None, false)])];
    });
    add(3, "interface", &|m| m.interface_metas = vec![interface("I", &["m1", "m2", "_"], &["n1", "n2", "_"])]);
    add(3, "interfaces", &|m| {
        m.interface_metas = vec![
            interface("", &[], &[]),
            interface("J", &["a"], &[]),
            interface("K", &[], &["a"]),
            interface("L", &["\u{e9}", "e\u{301}"], &["", "a"]),
        ];
    });
    add(4, "named type", &|m| m.named_type_metas = vec![named("N", &["p1", "p2"])]);
    // A long name first, so that a cut in the second method leaves bytes enough for the count.
    add(4, "named type with a long method", &|m| {
        m.named_type_metas = vec![named("N", &["a method with a long name", "b"])]
    });
    add(4, "named types", &|m| {
        m.named_type_metas =
            vec![named("", &[]), named("O", &["", "_", "a", "e\u{301}", "\u{e9}"]), named("P", &["a"])];
    });
    add(5, "itabs", &|m| {
        m.itabs = vec![
            Itab { iface_meta_id: 0x01020304, methods: vec![5, 0xFFFFFFFF] },
            Itab { iface_meta_id: 6, methods: vec![] },
        ];
    });
    for (label, runtime_type) in runtime_types() {
        add(6, &format!("runtime type: {label}"), &|m| m.runtime_types = vec![runtime_type.clone()]);
    }
    // Entries of which a later one is missing in a cut that leaves bytes enough for the count.
    add(6, "runtime types", &|m| {
        m.runtime_types = vec![RuntimeType::Array { len: 1, elem: rttid(2, ValueKind::Int) }, RuntimeType::Island];
    });
    add(8, "constants", &|m| m.constants = vec![Constant::Int(2), Constant::Nil, Constant::Bool(false)]);
    add(10, "instructions", &|m| {
        let first = InstructionMetadata::LoopEnd { end_pc: 3 };
        m.functions = vec![FunctionDef {
            code: code(2),
            instruction_metadata: vec![first, InstructionMetadata::None],
            ..function("")
        }];
    });
    add(6, "runtime types without lists", &|m| {
        m.runtime_types = vec![
            RuntimeType::Func { params: vec![], results: vec![], variadic: false },
            RuntimeType::Struct { fields: vec![], meta_id: 0 },
            RuntimeType::Interface { methods: vec![], meta_id: 0 },
            RuntimeType::Tuple(vec![]),
            RuntimeType::Chan { dir: ChanDir::Both, elem: rttid(0, ValueKind::Void) },
        ];
    });
    add(7, "well-known ids", &|m| m.well_known = well_known());
    for (label, constant) in constants() {
        add(8, &format!("constant: {label}"), &|m| m.constants = vec![constant.clone()]);
    }
    add(9, "globals", &|m| {
        m.globals = (0..25)
            .map(|k| GlobalDef {
                name: if k == 0 { "g".to_string() } else { String::new() },
                slots: k,
                value_kind: k as u8,
                meta_id: 1 << k,
                slot_types: ALL_SLOTS[..k as usize % 3].to_vec(),
            })
            .collect();
    });
    add(10, "function", &|m| m.functions = vec![function("")]);
    add(10, "rich function", &|m| m.functions = vec![rich_function(), function("g")]);
    for (label, metadata) in metadata() {
        add(10, &format!("metadata: {label}"), &|m| {
            m.functions =
                vec![FunctionDef { code: code(1), instruction_metadata: vec![metadata.clone()], ..function("") }];
        });
    }
    add(12, "entry", &|m| m.entry_func = 0xFFFFFFFF);
    add(13, "island init", &|m| m.island_init_func = 0x80000001);
    add(14, "artifacts", &|m| {
        m.artifacts = vec![
            ModuleArtifact::new("fold", 1, vec![0xFF, 0xFE, 0xFD]),
            ModuleArtifact::new("fold", 2, vec![1, 2]),
            ModuleArtifact::new("", 0xFFFFFFFF, vec![]),
            ModuleArtifact::new("e\u{301}", 3, vec![3]),
            ModuleArtifact::new("\u{e9}", 4, vec![4]),
            ModuleArtifact::new("a", 5, vec![]),
        ];
    });
    add(15, "files", &|m| m.debug_info.files = TEXTS.iter().map(|t| t.to_string()).collect());
    add(16, "locations", &|m| m.debug_info.funcs = locations());
    add(17, "inline sources", &|m| {
        m.functions = vec![function(""), function("")];
        m.debug_info.inline_sources = inline_sources();
    });
    out
}

/// One pack with every section filled and every variant in it.
pub fn full() -> Vec<u8> {
    let mut m = Module::new("pack".to_string());
    m.struct_metas = vec![
        structure(&ALL_SLOTS, vec![field("a1", None, false), field("a2", Some("t"), true), field("_", None, false)]),
        structure(&[], vec![]),
    ];
    m.interface_metas = vec![interface("I", &["m1", "m2"], &["n1", "n2"])];
    m.named_type_metas = vec![named("N", &["p1", "p2"])];
    m.itabs = vec![Itab { iface_meta_id: 1, methods: vec![2, 3] }];
    m.runtime_types = runtime_types().into_iter().map(|(_, t)| t).collect();
    m.well_known = well_known();
    m.constants = constants().into_iter().map(|(_, c)| c).collect();
    m.globals = vec![GlobalDef {
        name: "g".to_string(),
        slots: 1,
        value_kind: 24,
        meta_id: 2,
        slot_types: vec![SlotType::Float],
    }];
    let all: Vec<_> = metadata().into_iter().map(|(_, m)| m).collect();
    m.functions =
        vec![FunctionDef { code: code(all.len()), instruction_metadata: all, ..rich_function() }, function("g")];
    m.entry_func = 1;
    m.island_init_func = 2;
    m.artifacts = vec![ModuleArtifact::new("fold", 1, vec![9, 8, 7]), ModuleArtifact::new("rules", 2, vec![])];
    m.debug_info.files = vec!["a.vo".to_string(), "\u{e9}.vo".to_string()];
    m.debug_info.funcs = locations();
    m.debug_info.inline_sources = inline_sources();
    bytes_of(&m)
}

/// A pack with one extern: written by the Rust, refused with 25.
pub fn with_extern() -> Vec<u8> {
    let mut m = module();
    m.externs = vec![ExternDef {
        name: "x".to_string(),
        params: ParamShape::Exact { slots: 1 },
        returns: ReturnShape::new(0, vec![], vec![]),
        allowed_effects: ExternEffects::default(),
        param_kinds: vec![ExtSlotKind::Value],
    }];
    bytes_of(&m)
}

pub fn with_artifacts(artifacts: &[(&str, u32, &[u8])]) -> Vec<u8> {
    let mut m = module();
    m.artifacts = artifacts.iter().map(|(n, v, p)| ModuleArtifact::new(*n, *v, p.to_vec())).collect();
    bytes_of(&m)
}

pub fn with_struct_fields(names: &[&str]) -> Vec<u8> {
    let mut m = module();
    m.struct_metas = vec![structure(&[], names.iter().map(|n| field(n, None, false)).collect())];
    bytes_of(&m)
}

pub fn with_interface(names: &[&str], methods: &[&str]) -> Vec<u8> {
    let mut m = module();
    m.interface_metas = vec![interface("I", names, methods)];
    bytes_of(&m)
}

pub fn with_named_methods(names: &[&str]) -> Vec<u8> {
    let mut m = module();
    m.named_type_metas = vec![named("N", names)];
    bytes_of(&m)
}

pub fn with_runtime_struct(fields: &[(&str, &str)]) -> Vec<u8> {
    let mut m = module();
    m.runtime_types = vec![RuntimeType::Struct {
        meta_id: 0,
        fields: fields.iter().map(|(p, n)| struct_field(p, n, "", false)).collect(),
    }];
    bytes_of(&m)
}

pub fn with_runtime_interface(names: &[&str]) -> Vec<u8> {
    let mut m = module();
    let methods = names.iter().map(|n| InterfaceMethod::new(n.to_string(), rttid(9, ValueKind::String))).collect();
    m.runtime_types = vec![RuntimeType::Interface { meta_id: 0, methods }];
    bytes_of(&m)
}

/// A global with this many slot types: one byte and one word each.
pub fn with_slots(count: usize) -> Vec<u8> {
    let mut m = module();
    m.globals = vec![GlobalDef {
        name: String::new(),
        slots: 0,
        value_kind: 0,
        meta_id: 0,
        slot_types: vec![SlotType::Float; count],
    }];
    bytes_of(&m)
}

/// SplitMix64: the same seed gives the same pack on every machine.
pub struct Chance(pub u64);

impl Chance {
    pub fn next(&mut self) -> u64 {
        self.0 = self.0.wrapping_add(0x9E37_79B9_7F4A_7C15);
        let mut z = self.0;
        z = (z ^ (z >> 30)).wrapping_mul(0xBF58_476D_1CE4_E5B9);
        z = (z ^ (z >> 27)).wrapping_mul(0x94D0_49BB_1331_11EB);
        z ^ (z >> 31)
    }

    pub fn below(&mut self, bound: u64) -> u64 {
        self.next() % bound
    }

    pub fn word(&mut self) -> u32 {
        // Small and large numbers alike.
        let bits = self.below(33);
        (self.next() & ((1 << bits) - 1)) as u32
    }

    fn short(&mut self) -> u16 {
        self.word() as u16
    }

    pub fn flag(&mut self) -> bool {
        self.below(2) == 1
    }

    pub fn text(&mut self) -> String {
        let count = self.below(6);
        (0..count).map(|_| self.character()).collect()
    }

    fn character(&mut self) -> char {
        const SOME: [char; 12] =
            ['a', 'b', 'A', '_', '0', '\u{e9}', '\u{301}', '\u{df}', '\u{20ac}', '\u{ffff}', '\u{10348}', '\u{10ffff}'];
        SOME[self.below(SOME.len() as u64) as usize]
    }

    fn list<T>(&mut self, most: u64, item: impl Fn(&mut Self) -> T) -> Vec<T> {
        let count = self.below(most + 1);
        (0..count).map(|_| item(self)).collect()
    }

    /// Texts that differ from one another; "_" may stand among them more than once.
    fn names(&mut self, most: u64, blanks: bool) -> Vec<String> {
        let mut seen = std::collections::BTreeSet::new();
        let texts = self.list(most, |c| if c.below(8) == 0 { "_".to_string() } else { c.text() });
        texts.into_iter().filter(|t| (blanks && t == "_") || seen.insert(t.clone())).collect()
    }

    fn slots(&mut self) -> Vec<SlotType> {
        self.list(4, |c| ALL_SLOTS[c.below(6) as usize])
    }

    fn rttid(&mut self) -> ValueRttid {
        let id = self.word() >> 8;
        rttid(id.min(0xFFFFFE), kind(self.next()))
    }

    fn meta(&mut self) -> ValueMeta {
        let id = self.word() >> 8;
        ValueMeta::new(id.min(0xFFFFFE), kind(self.next()))
    }

    fn id(&mut self) -> Option<u32> {
        self.flag().then(|| self.word().min(u32::MAX - 1))
    }

    fn transfers(&mut self) -> Vec<TransferType> {
        self.list(3, |c| TransferType { meta_raw: c.meta().to_raw(), rttid_raw: c.rttid().to_raw(), slots: c.short() })
    }

    fn function(&mut self, steps: u64) -> FunctionDef {
        let all = metadata();
        let code = self.list(steps, |c| Instruction {
            op: c.next() as u8,
            flags: c.next() as u8,
            a: c.short(),
            b: c.short(),
            c: c.short(),
        });
        let instruction_metadata = code
            .iter()
            .map(|_| {
                if self.flag() {
                    InstructionMetadata::None
                } else {
                    all[self.below(all.len() as u64) as usize].1.clone()
                }
            })
            .collect();
        let slot_types = self.slots();
        FunctionDef {
            name: self.text(),
            param_count: self.short(),
            param_slots: self.short(),
            local_slots: slot_types.len() as u16,
            ret_slots: self.short(),
            ret_slot_types: self.slots(),
            recv_slots: self.short(),
            heap_ret_gcref_count: self.short(),
            heap_ret_gcref_start: self.short(),
            heap_ret_slots: self.list(3, Chance::short),
            is_closure: self.flag(),
            error_ret_slot: self.word() as i32,
            has_defer: self.flag(),
            has_calls: false,
            has_call_extern: false,
            code,
            instruction_metadata,
            slot_types,
            capture_types: self.transfers(),
            capture_slot_types: self.slots(),
            param_types: self.transfers(),
        }
    }

    /// Any metadata; `function` takes its own from the fixed list.
    pub fn metadata(&mut self) -> InstructionMetadata {
        use InstructionMetadata as M;
        match self.below(16) {
            0 => M::None,
            1 => M::ElemLayout { elem_bytes: self.word(), needs_sign_extend: self.flag(), slot_layout: self.slots() },
            2 => M::MapGet { key_layout: self.slots(), val_layout: self.slots(), has_ok: self.flag() },
            3 => M::MapSet { key_layout: self.slots(), val_layout: self.slots() },
            4 => M::MapDelete { key_layout: self.slots() },
            5 => M::LoopEnd { end_pc: self.word() },
            6 => M::PtrLayout { value_layout: self.slots() },
            7 => M::SlotLayout { array_len: self.short(), elem_layout: self.slots() },
            8 => M::CallLayout { arg_layout: self.slots(), ret_layout: self.slots() },
            9 => M::CallExternLayout { arg_layout: self.slots(), ret_layout: self.slots() },
            10 => M::QueueLayout { elem_layout: self.slots() },
            11 => M::MapIterNext { key_layout: self.slots(), val_layout: self.slots() },
            12 => M::IfaceAssertLayout {
                assert_kind: self.flag() as u8,
                target_id: self.word(),
                result_layout: self.slots(),
            },
            13 => M::MapNew { key_layout: self.slots(), val_layout: self.slots() },
            14 => M::CallIfaceLayout {
                iface_meta_id: self.word(),
                method_idx: self.word(),
                arg_layout: self.slots(),
                ret_layout: self.slots(),
            },
            _ => M::SelectExecLayout { cases: self.list(4, Chance::select_case) },
        }
    }

    fn select_case(&mut self) -> SelectCaseLayout {
        if self.flag() {
            SelectCaseLayout::Send { queue: self.short(), value: self.short(), elem_slots: self.short() }
        } else {
            SelectCaseLayout::Recv {
                destination: self.short(),
                queue: self.short(),
                elem_slots: self.short(),
                has_ok: self.flag(),
            }
        }
    }

    fn runtime_type(&mut self) -> RuntimeType {
        use RuntimeType as T;
        let dir = [ChanDir::Both, ChanDir::Send, ChanDir::Recv][self.below(3) as usize];
        match self.below(13) {
            0 => T::Basic(kind(self.next())),
            1 => T::Named { id: self.word(), struct_meta_id: self.id() },
            2 => T::Pointer(self.rttid()),
            3 => T::Array { len: self.next(), elem: self.rttid() },
            4 => T::Slice(self.rttid()),
            5 => T::Map { key: self.rttid(), val: self.rttid() },
            6 => T::Chan { dir, elem: self.rttid() },
            7 => T::Port { dir, elem: self.rttid() },
            8 => T::Func {
                params: self.list(3, Chance::rttid),
                results: self.list(3, Chance::rttid),
                variadic: self.flag(),
            },
            9 => {
                let names = self.names(4, true);
                let fields = names
                    .into_iter()
                    .map(|n| StructField::new(n, self.rttid(), self.text(), self.flag(), self.text()))
                    .collect();
                T::Struct { fields, meta_id: self.word() }
            }
            10 => {
                let methods = self.names(4, false).into_iter().map(|n| InterfaceMethod::new(n, self.rttid())).collect();
                T::Interface { methods, meta_id: self.word() }
            }
            11 => T::Tuple(self.list(4, Chance::rttid)),
            _ => T::Island,
        }
    }

    fn constant(&mut self) -> Constant {
        match self.below(5) {
            0 => Constant::Nil,
            1 => Constant::Bool(self.flag()),
            2 => Constant::Int(self.next() as i64),
            3 => Constant::Float(f64::from_bits(self.next())),
            _ => Constant::String(self.text()),
        }
    }

    /// A module whose lists have at most `most` entries.
    pub fn module(&mut self, most: u64) -> Module {
        let mut m = Module::new(self.text());
        m.struct_metas = self.list(most, |c| {
            let fields = c.names(most, true).into_iter().map(|name| FieldMeta {
                name,
                offset: c.short(),
                slot_count: c.short(),
                type_info: c.rttid(),
                embedded: c.flag(),
                tag: c.flag().then(|| c.text()),
            });
            let fields = fields.collect();
            structure(&c.slots(), fields)
        });
        m.interface_metas = self.list(most, |c| InterfaceMeta {
            name: c.text(),
            method_names: c.names(most, false),
            methods: c
                .names(most, false)
                .into_iter()
                .map(|name| InterfaceMethodMeta { name, signature_rttid: c.word() })
                .collect(),
        });
        m.named_type_metas = self.list(most, |c| {
            let names = c.names(most, false);
            let methods: BTreeMap<_, _> = names
                .into_iter()
                .map(|n| {
                    (
                        n,
                        MethodInfo {
                            func_id: c.word(),
                            is_pointer_receiver: c.flag(),
                            receiver_is_iface_boxed: c.flag(),
                            signature_rttid: c.word(),
                        },
                    )
                })
                .collect();
            NamedTypeMeta { name: c.text(), underlying_meta: c.meta(), underlying_rttid: c.rttid(), methods }
        });
        m.itabs = self.list(most, |c| Itab { iface_meta_id: c.word(), methods: c.list(most, Chance::word) });
        m.runtime_types = self.list(2 * most, Chance::runtime_type);
        m.well_known = WellKnownTypes {
            error_named_type_id: self.id(),
            error_iface_meta_id: self.id(),
            error_ptr_rttid: self.id(),
            error_struct_meta_id: self.id(),
            error_field_offsets: self.flag().then(|| [self.short(), self.short()]),
            attr_object_iface_id: self.id(),
            set_attr_object_iface_id: self.id(),
            index_object_iface_id: self.id(),
            set_index_object_iface_id: self.id(),
            call_object_iface_id: self.id(),
        };
        m.constants = self.list(most, Chance::constant);
        m.globals = self.list(most, |c| GlobalDef {
            name: c.text(),
            slots: c.short(),
            value_kind: kind(c.next()) as u8,
            meta_id: c.word(),
            slot_types: c.slots(),
        });
        m.functions = self.list(most, |c| c.function(most));
        m.entry_func = self.word();
        m.island_init_func = self.word();
        m.artifacts =
            self.list(most.min(8), |c| ModuleArtifact::new(c.text(), c.word(), c.list(12, |c| c.next() as u8)));
        m.debug_info.files = self.list(most, Chance::text);
        m.debug_info.funcs = self.list(most, |c| FuncDebugInfo {
            entries: c.list(most, |c| DebugLoc {
                pc: c.word(),
                file_id: c.word(),
                line: c.word(),
                col: c.word(),
                len: c.word(),
            }),
        });
        m.debug_info.inline_sources.frames = self.list(most, |c| InlineSourceFrame {
            parent: c.word(),
            function_id: c.word(),
            span: c.flag().then(|| SourceSpan { file_id: c.word(), line: c.word(), col: c.word(), len: c.word() }),
        });
        m.debug_info.inline_sources.functions = self.list(m.functions.len() as u64, |c| InlineFunctionSources {
            function_id: c.word(),
            entries: c.list(most, |c| InlineSourceEntry { pc: c.word(), frame: c.word() }),
        });
        m
    }
}

/// A pack of exactly `size` bytes that the layout admits, for timing. None where the kind is unknown or size too small.
pub fn large(kind: &str, size: usize, seed: u64) -> Option<Vec<u8>> {
    let mut chance = Chance(seed);
    let mut m = module();
    let bare = bytes_of(&m).len();
    // What doesn't fit any more is padding, one constant text: 5 bytes and its length.
    let mut room = size.checked_sub(bare + 5)?;
    match kind {
        "mixed" => loop {
            let part = chance.module(8);
            // Sections that several parts can share; the others stay bare.
            let part = Module {
                name: String::new(),
                well_known: WellKnownTypes::default(),
                entry_func: 0,
                island_init_func: 0,
                artifacts: vec![],
                debug_info: DebugInfo { inline_sources: InlineSources::default(), ..part.debug_info },
                ..part
            };
            let cost = bytes_of(&part).len() - bare;
            if cost > room {
                break;
            }
            room -= cost;
            m.struct_metas.extend(part.struct_metas);
            m.interface_metas.extend(part.interface_metas);
            m.named_type_metas.extend(part.named_type_metas);
            m.itabs.extend(part.itabs);
            m.runtime_types.extend(part.runtime_types);
            m.constants.extend(part.constants);
            m.globals.extend(part.globals);
            m.functions.extend(part.functions);
            m.debug_info.files.extend(part.debug_info.files);
            m.debug_info.funcs.extend(part.debug_info.funcs);
        },
        // One struct with as many different field names as fit.
        "names" => {
            let mut fields = Vec::new();
            let mut i = 0u64;
            room = room.checked_sub(8)?;
            while room >= 26 + 64 {
                let name = format!("f{:011x}", i.wrapping_mul(0x9E37_79B9) & 0xFFF_FFFF_FFFF);
                fields.push(field(&name, None, false));
                room -= 4 + name.len() + 10;
                i += 1;
            }
            m.struct_metas = vec![structure(&[], fields)];
        }
        "slots" => {
            let count = room.checked_sub(15)?;
            let slot_types = (0..count).map(|_| ALL_SLOTS[chance.below(6) as usize]).collect();
            m.globals = vec![GlobalDef { name: String::new(), slots: 0, value_kind: 0, meta_id: 0, slot_types }];
        }
        "texts" => {
            while room >= 5 + 40 + 64 {
                let length = 8 + chance.below(24) as usize;
                let text: String = (0..length)
                    .map(|i| if i % 16 == 15 { '\u{e9}' } else { (b'a' + (i % 26) as u8) as char })
                    .collect();
                room -= 5 + text.len();
                m.constants.push(Constant::String(text));
            }
        }
        "code" => {
            while room >= 2048 {
                let function = chance.function(64);
                let mut one = module();
                one.functions = vec![function.clone()];
                room -= bytes_of(&one).len() - bare;
                m.functions.push(function);
            }
        }
        _ => return None,
    }
    let written = bytes_of(&m).len();
    m.constants.push(Constant::String("x".repeat(size - written - 5)));
    let bytes = bytes_of(&m);
    assert_eq!(bytes.len(), size);
    Some(bytes)
}
