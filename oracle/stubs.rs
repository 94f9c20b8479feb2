// Stand-ins for four modules of the original crate that are not among the seven files. Reading and writing a pack
// never calls them; they only let bytecode.rs compile. (An extern's return shape is judged by bytecode.rs itself.)

pub mod extern_key {
    #[derive(Clone, Copy)]
    pub struct Key<'a>(pub &'a str);

    impl<'a> Key<'a> {
        pub fn package(&self) -> &'a str {
            self.0
        }
        pub fn function(&self) -> &'a str {
            self.0
        }
        pub fn is_owned_by_module(&self, _owner: &str) -> bool {
            false
        }
    }

    #[derive(Clone, Copy)]
    pub enum ExternNameClass<'a> {
        Canonical(Key<'a>),
        Other,
    }

    pub fn classify_extern_name(_name: &str) -> Result<ExternNameClass<'_>, String> {
        Ok(ExternNameClass::Other)
    }
    pub fn validate_canonical_module_owner(_owner: &str) -> Result<(), String> {
        Ok(())
    }
    pub fn is_vm_variable_shape_extern_name(_name: &str) -> bool {
        false
    }
}

pub mod execution_layouts {
    #[derive(Debug)]
    pub struct ElementLayoutMaps;
    #[derive(Debug)]
    pub struct PointerLayoutMaps;
    #[derive(Debug)]
    pub struct SelectLayoutMaps;
    #[derive(Debug)]
    pub struct ExecutionLayoutMaps;

    impl SelectLayoutMaps {
        pub fn build(_module: &crate::bytecode::Module) -> Self {
            Self
        }
    }

    impl ExecutionLayoutMaps {
        pub fn build(_module: &crate::bytecode::Module, _bases: &crate::exact_bases::ExactBaseMaps) -> Self {
            Self
        }
        pub fn element_maps(&self) -> ElementLayoutMaps {
            ElementLayoutMaps
        }
        pub fn pointer_maps(&self) -> PointerLayoutMaps {
            PointerLayoutMaps
        }
    }
}

pub mod frame_roots {
    #[derive(Debug)]
    pub struct FrameRootMaps;
}

pub mod exact_bases {
    #[derive(Debug)]
    pub struct ExactBaseMaps;
}
