//! The tape of a taken pack, computed from the Module and the reported spans: the Rust has no tape.

use measured::bytecode::{Constant, InstructionMetadata, Module, SelectCaseLayout, TransferType};
use measured::report::{Site, Span};
use measured::types::{SlotType, ValueRttid};
use measured::RuntimeType;

struct Tape<'a> {
    pack: &'a [u8],
    spans: std::slice::Iter<'a, Span>,
    /// Added to each start: a section read behind another opening part keeps its own places.
    shift: i64,
    sections: Vec<Vec<u32>>,
}

/// The words of each of the seventeen sections.
pub fn words(module: &Module, pack: &[u8], spans: &[Span], shift: i64) -> Vec<Vec<u32>> {
    let mut t = Tape { pack, spans: spans.iter(), shift, sections: Vec::new() };
    t.section();
    t.text(Site::ModuleName, module.name.as_bytes());

    t.section();
    t.count(module.struct_metas.len());
    for meta in &module.struct_metas {
        t.slots(&meta.slot_types);
        t.count(meta.fields.len());
        for field in &meta.fields {
            t.text(Site::StructFieldName, field.name.as_bytes());
            t.word(field.offset);
            t.word(field.slot_count);
            t.word(field.type_info.to_raw());
            t.word(field.embedded);
            t.word(field.tag.is_some());
            if let Some(tag) = &field.tag {
                t.text(Site::StructFieldTag, tag.as_bytes());
            }
        }
    }

    t.section();
    t.count(module.interface_metas.len());
    for meta in &module.interface_metas {
        t.text(Site::InterfaceName, meta.name.as_bytes());
        t.count(meta.method_names.len());
        for name in &meta.method_names {
            t.text(Site::InterfaceMethodName, name.as_bytes());
        }
        t.count(meta.methods.len());
        for method in &meta.methods {
            t.text(Site::InterfaceMethod, method.name.as_bytes());
            t.word(method.signature_rttid);
        }
    }

    t.section();
    t.count(module.named_type_metas.len());
    for meta in &module.named_type_metas {
        t.text(Site::NamedTypeName, meta.name.as_bytes());
        t.word(meta.underlying_meta.to_raw());
        t.word(meta.underlying_rttid.to_raw());
        t.count(meta.methods.len());
        // The map is sorted; the file's order is that of the spans.
        for _ in 0..meta.methods.len() {
            let name = t.next(Site::NamedMethod);
            let name = std::str::from_utf8(name).expect("the Rust took this name");
            let method = &meta.methods[name];
            t.word(method.func_id);
            t.word(method.is_pointer_receiver);
            t.word(method.receiver_is_iface_boxed);
            t.word(method.signature_rttid);
        }
    }

    t.section();
    t.count(module.itabs.len());
    for itab in &module.itabs {
        t.word(itab.iface_meta_id);
        t.count(itab.methods.len());
        for method in &itab.methods {
            t.word(*method);
        }
    }

    t.section();
    t.count(module.runtime_types.len());
    for runtime_type in &module.runtime_types {
        t.runtime_type(runtime_type);
    }

    t.section();
    let known = &module.well_known;
    t.optional_id(known.error_named_type_id);
    t.optional_id(known.error_iface_meta_id);
    t.optional_id(known.error_ptr_rttid);
    t.optional_id(known.error_struct_meta_id);
    t.word(known.error_field_offsets.is_some());
    for offset in known.error_field_offsets.iter().flatten() {
        t.word(*offset);
    }
    t.optional_id(known.attr_object_iface_id);
    t.optional_id(known.set_attr_object_iface_id);
    t.optional_id(known.index_object_iface_id);
    t.optional_id(known.set_index_object_iface_id);
    t.optional_id(known.call_object_iface_id);

    t.section();
    t.count(module.constants.len());
    for constant in &module.constants {
        match constant {
            Constant::Nil => t.word(0u8),
            Constant::Bool(b) => {
                t.word(1u8);
                t.word(*b);
            }
            Constant::Int(i) => {
                t.word(2u8);
                t.long(*i as u64);
            }
            Constant::Float(f) => {
                t.word(3u8);
                t.long(f.to_bits());
            }
            Constant::String(s) => {
                t.word(4u8);
                t.text(Site::ConstantText, s.as_bytes());
            }
        }
    }

    t.section();
    t.count(module.globals.len());
    for global in &module.globals {
        t.text(Site::GlobalName, global.name.as_bytes());
        t.word(global.slots);
        t.word(global.value_kind);
        t.word(global.meta_id);
        t.slots(&global.slot_types);
    }

    t.section();
    t.count(module.functions.len());
    for function in &module.functions {
        t.text(Site::FunctionName, function.name.as_bytes());
        t.word(function.param_count);
        t.word(function.param_slots);
        t.word(function.local_slots);
        t.word(function.ret_slots);
        t.slots(&function.ret_slot_types);
        t.word(function.recv_slots);
        t.word(function.heap_ret_gcref_count);
        t.word(function.heap_ret_gcref_start);
        t.count(function.heap_ret_slots.len());
        for slot in &function.heap_ret_slots {
            t.word(*slot);
        }
        t.word(function.is_closure);
        t.word(function.error_ret_slot as u32);
        t.word(function.has_defer);
        t.slots(&function.slot_types);
        t.count(function.code.len());
        for i in &function.code {
            t.word(i.op);
            t.word(i.flags);
            t.word(i.a);
            t.word(i.b);
            t.word(i.c);
        }
        t.count(function.instruction_metadata.len());
        for metadata in &function.instruction_metadata {
            t.metadata(metadata);
        }
        t.transfers(&function.capture_types);
        t.slots(&function.capture_slot_types);
        t.transfers(&function.param_types);
    }

    t.section();
    assert!(module.externs.is_empty(), "a pack with externs has no tape");
    t.count(0);
    t.section();
    t.word(module.entry_func);
    t.section();
    t.word(module.island_init_func);

    t.section();
    t.count(module.artifacts.len());
    for artifact in &module.artifacts {
        t.text(Site::ArtifactName, artifact.name.as_bytes());
        t.word(artifact.version);
        t.text(Site::ArtifactPayload, &artifact.payload);
    }

    let debug = &module.debug_info;
    t.section();
    t.count(debug.files.len());
    for file in &debug.files {
        t.text(Site::FileName, file.as_bytes());
    }

    t.section();
    t.count(debug.funcs.len());
    for func in &debug.funcs {
        t.count(func.entries.len());
        for entry in &func.entries {
            for number in [entry.pc, entry.file_id, entry.line, entry.col, entry.len] {
                t.word(number);
            }
        }
    }

    t.section();
    t.count(debug.inline_sources.frames.len());
    for frame in &debug.inline_sources.frames {
        t.word(frame.parent);
        t.word(frame.function_id);
        t.word(frame.span.is_some());
        if let Some(span) = &frame.span {
            for number in [span.file_id, span.line, span.col, span.len] {
                t.word(number);
            }
        }
    }
    t.count(debug.inline_sources.functions.len());
    for function in &debug.inline_sources.functions {
        t.word(function.function_id);
        t.count(function.entries.len());
        for entry in &function.entries {
            t.word(entry.pc);
            t.word(entry.frame);
        }
    }

    assert!(t.spans.next().is_none(), "each reported text stands on the tape");
    assert_eq!(t.sections.len(), 17);
    t.sections
}

impl<'a> Tape<'a> {
    fn section(&mut self) {
        self.sections.push(Vec::new());
    }

    fn word(&mut self, word: impl Into<u32>) {
        self.sections.last_mut().expect("a section is open").push(word.into());
    }

    fn long(&mut self, long: u64) {
        self.word(long as u32);
        self.word((long >> 32) as u32);
    }

    fn count(&mut self, count: usize) {
        self.word(count as u32);
    }

    /// Start and length of the next span; gives its bytes.
    fn next(&mut self, site: Site) -> &'a [u8] {
        let span = self.spans.next().expect("each text has a span");
        assert_eq!(span.site, site);
        self.word((span.start as i64 + self.shift) as u32);
        self.word(span.len as u32);
        &self.pack[span.start..span.start + span.len]
    }

    fn text(&mut self, site: Site, bytes: &[u8]) {
        assert_eq!(self.next(site), bytes);
    }

    fn optional_id(&mut self, id: Option<u32>) {
        self.word(id.is_some());
        self.word(id.unwrap_or(0));
    }

    fn slots(&mut self, slots: &[SlotType]) {
        self.count(slots.len());
        for slot in slots {
            self.word(*slot as u8);
        }
    }

    fn rttids(&mut self, ids: &[ValueRttid]) {
        self.count(ids.len());
        for id in ids {
            self.word(id.to_raw());
        }
    }

    fn transfers(&mut self, transfers: &[TransferType]) {
        self.count(transfers.len());
        for transfer in transfers {
            self.word(transfer.meta_raw);
            self.word(transfer.rttid_raw);
            self.word(transfer.slots);
        }
    }

    fn runtime_type(&mut self, runtime_type: &RuntimeType) {
        match runtime_type {
            RuntimeType::Basic(kind) => {
                self.word(0u8);
                self.word(*kind as u8);
            }
            RuntimeType::Named { id, struct_meta_id } => {
                self.word(1u8);
                self.word(*id);
                self.optional_id(*struct_meta_id);
            }
            RuntimeType::Pointer(elem) => {
                self.word(2u8);
                self.word(elem.to_raw());
            }
            RuntimeType::Array { len, elem } => {
                self.word(3u8);
                self.long(*len);
                self.word(elem.to_raw());
            }
            RuntimeType::Slice(elem) => {
                self.word(4u8);
                self.word(elem.to_raw());
            }
            RuntimeType::Map { key, val } => {
                self.word(5u8);
                self.word(key.to_raw());
                self.word(val.to_raw());
            }
            RuntimeType::Chan { dir, elem } => {
                self.word(6u8);
                self.word(*dir as u8);
                self.word(elem.to_raw());
            }
            RuntimeType::Func { params, results, variadic } => {
                self.word(7u8);
                self.word(*variadic);
                self.rttids(params);
                self.rttids(results);
            }
            RuntimeType::Struct { fields, meta_id } => {
                self.word(8u8);
                self.word(*meta_id);
                self.count(fields.len());
                for field in fields {
                    self.text(Site::RuntimeFieldName, field.name.as_bytes());
                    self.word(field.typ.to_raw());
                    self.text(Site::RuntimeFieldTag, field.tag.as_bytes());
                    self.word(field.embedded);
                    self.text(Site::RuntimeFieldPackage, field.pkg.as_bytes());
                }
            }
            RuntimeType::Interface { methods, meta_id } => {
                self.word(9u8);
                self.word(*meta_id);
                self.count(methods.len());
                for method in methods {
                    self.text(Site::RuntimeMethodName, method.name.as_bytes());
                    self.word(method.sig.to_raw());
                }
            }
            RuntimeType::Tuple(types) => {
                self.word(10u8);
                self.rttids(types);
            }
            RuntimeType::Port { dir, elem } => {
                self.word(11u8);
                self.word(*dir as u8);
                self.word(elem.to_raw());
            }
            RuntimeType::Island => self.word(12u8),
        }
    }

    fn metadata(&mut self, metadata: &InstructionMetadata) {
        use InstructionMetadata as M;
        match metadata {
            M::None => self.word(0u8),
            M::ElemLayout { elem_bytes, needs_sign_extend, slot_layout } => {
                self.word(1u8);
                self.word(*elem_bytes);
                self.word(*needs_sign_extend);
                self.slots(slot_layout);
            }
            M::MapGet { key_layout, val_layout, has_ok } => {
                self.word(2u8);
                self.slots(key_layout);
                self.slots(val_layout);
                self.word(*has_ok);
            }
            M::MapSet { key_layout, val_layout } => self.two_layouts(3, key_layout, val_layout),
            M::MapDelete { key_layout } => {
                self.word(4u8);
                self.slots(key_layout);
            }
            M::LoopEnd { end_pc } => {
                self.word(5u8);
                self.word(*end_pc);
            }
            M::PtrLayout { value_layout } => {
                self.word(9u8);
                self.slots(value_layout);
            }
            M::SlotLayout { array_len, elem_layout } => {
                self.word(10u8);
                self.word(*array_len);
                self.slots(elem_layout);
            }
            M::CallLayout { arg_layout, ret_layout } => self.two_layouts(11, arg_layout, ret_layout),
            M::CallExternLayout { arg_layout, ret_layout } => self.two_layouts(12, arg_layout, ret_layout),
            M::QueueLayout { elem_layout } => {
                self.word(13u8);
                self.slots(elem_layout);
            }
            M::MapIterNext { key_layout, val_layout } => self.two_layouts(14, key_layout, val_layout),
            M::IfaceAssertLayout { assert_kind, target_id, result_layout } => {
                self.word(15u8);
                self.word(*assert_kind);
                self.word(*target_id);
                self.slots(result_layout);
            }
            M::MapNew { key_layout, val_layout } => self.two_layouts(16, key_layout, val_layout),
            M::CallIfaceLayout { iface_meta_id, method_idx, arg_layout, ret_layout } => {
                self.word(17u8);
                self.word(*iface_meta_id);
                self.word(*method_idx);
                self.slots(arg_layout);
                self.slots(ret_layout);
            }
            M::SelectExecLayout { cases } => {
                self.word(18u8);
                self.count(cases.len());
                for case in cases {
                    match case {
                        SelectCaseLayout::Send { queue, value, elem_slots } => {
                            self.word(0u8);
                            for number in [queue, value, elem_slots] {
                                self.word(*number);
                            }
                        }
                        SelectCaseLayout::Recv { destination, queue, elem_slots, has_ok } => {
                            self.word(1u8);
                            for number in [destination, queue, elem_slots] {
                                self.word(*number);
                            }
                            self.word(*has_ok);
                        }
                    }
                }
            }
        }
    }

    fn two_layouts(&mut self, tag: u8, first: &[SlotType], second: &[SlotType]) {
        self.word(tag);
        self.slots(first);
        self.slots(second);
    }
}
