//! The types of nemo_physical that nemo's query rewriting names.

pub mod datavalues {
    #[derive(Debug, Clone, Copy, PartialEq, Eq)]
    pub enum ValueDomain {
        PlainString,
        LanguageTaggedString,
        Iri,
        Float,
        Double,
        UnsignedLong,
        NonNegativeLong,
        UnsignedInt,
        NonNegativeInt,
        Long,
        Int,
        Tuple,
        Map,
        Boolean,
        Null,
        Other,
    }

    /// A value by its domain, its lexical form and its datatype or language tag.
    #[derive(Debug, Clone, PartialEq, Eq)]
    pub struct AnyDataValue {
        pub domain: ValueDomain,
        pub lexical: String,
        pub extra: String,
    }

    pub trait DataValue {
        fn value_domain(&self) -> ValueDomain;
        fn lexical_value(&self) -> String;
        fn datatype_iri(&self) -> String;
        fn to_plain_string_unchecked(&self) -> String;
        fn to_language_tagged_string_unchecked(&self) -> (String, String);
        fn to_iri_unchecked(&self) -> String;
        fn to_boolean(&self) -> Option<bool>;
    }

    impl DataValue for AnyDataValue {
        fn value_domain(&self) -> ValueDomain {
            self.domain
        }

        fn lexical_value(&self) -> String {
            self.lexical.clone()
        }

        fn datatype_iri(&self) -> String {
            self.extra.clone()
        }

        fn to_plain_string_unchecked(&self) -> String {
            self.lexical.clone()
        }

        fn to_language_tagged_string_unchecked(&self) -> (String, String) {
            (self.lexical.clone(), self.extra.clone())
        }

        fn to_iri_unchecked(&self) -> String {
            self.lexical.clone()
        }

        fn to_boolean(&self) -> Option<bool> {
            (self.domain == ValueDomain::Boolean).then(|| self.lexical == "true")
        }
    }
}

pub mod datasources {
    pub mod bindings {
        use crate::datavalues::AnyDataValue;

        #[derive(Debug, Clone)]
        pub struct Bindings {
            positions: Vec<usize>,
            bindings: Vec<Vec<AnyDataValue>>,
        }

        impl Bindings {
            pub fn new(positions: Vec<usize>, bindings: Vec<Vec<AnyDataValue>>) -> Self {
                Self {
                    positions,
                    bindings,
                }
            }

            pub fn positions(&self) -> &[usize] {
                &self.positions
            }

            pub fn bindings(&self) -> &[Vec<AnyDataValue>] {
                &self.bindings
            }
        }
    }
}

pub mod function {
    pub mod definitions {
        #[derive(Debug, Clone, PartialEq, Eq)]
        pub enum UnaryFunctionEnum {
            Datatype(()),
            LanguageTag(()),
            Other(String),
        }

        #[derive(Debug, Clone, PartialEq, Eq)]
        pub enum BinaryFunctionEnum {
            Equals(()),
            Unequals(()),
            Other(String),
        }

        #[derive(Debug, Clone, PartialEq, Eq)]
        pub struct TernaryFunctionEnum(pub String);

        #[derive(Debug, Clone, PartialEq, Eq)]
        pub struct NaryFunctionEnum(pub String);
    }

    pub mod tree {
        use super::definitions::{
            BinaryFunctionEnum, NaryFunctionEnum, TernaryFunctionEnum, UnaryFunctionEnum,
        };
        use crate::datavalues::{AnyDataValue, DataValue};

        #[derive(Debug, Clone, PartialEq, Eq)]
        pub enum FunctionLeaf<Reference> {
            Constant(AnyDataValue),
            Reference(Reference),
        }

        #[derive(Debug, Clone, PartialEq, Eq)]
        pub enum FunctionTree<Reference> {
            Leaf(FunctionLeaf<Reference>),
            Unary(UnaryFunctionEnum, Box<Self>),
            Binary {
                function: BinaryFunctionEnum,
                left: Box<Self>,
                right: Box<Self>,
            },
            Ternary {
                function: TernaryFunctionEnum,
                first: Box<Self>,
                second: Box<Self>,
                third: Box<Self>,
            },
            Nary {
                function: NaryFunctionEnum,
                parameters: Vec<Self>,
            },
        }

        impl<Reference> FunctionTree<Reference> {
            pub fn is_constant_true(&self) -> bool {
                match self {
                    Self::Leaf(FunctionLeaf::Constant(value)) => {
                        value.to_boolean().unwrap_or_default()
                    }
                    _ => false,
                }
            }
        }
    }
}

pub mod tabular {
    pub mod operations {
        #[derive(Debug, Clone, PartialEq, Eq, Hash)]
        pub struct OperationColumnMarker(pub usize);
    }

    pub mod filters {
        use super::operations::OperationColumnMarker;
        use crate::function::tree::FunctionTree;

        #[derive(Debug, Clone)]
        pub struct FilterTransformPattern {
            filter: FunctionTree<OperationColumnMarker>,
        }

        impl FilterTransformPattern {
            pub fn new(filter: FunctionTree<OperationColumnMarker>) -> Self {
                Self { filter }
            }

            pub fn filter_function(&self) -> &FunctionTree<OperationColumnMarker> {
                &self.filter
            }
        }
    }
}
