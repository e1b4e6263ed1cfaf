//! The types of spargebra that nemo's query rewriting and the crate's layout name, in the real crate's shape. A base is a
//! string; the real crate's is an IRI of another crate.

pub mod term {
    pub use oxrdf::{BlankNode, Literal, NamedNode, Variable};

    #[derive(Debug, Clone, PartialEq, Eq, Hash)]
    pub enum TermPattern {
        NamedNode(NamedNode),
        BlankNode(BlankNode),
        Literal(Literal),
        Variable(Variable),
    }

    #[derive(Debug, Clone, PartialEq, Eq, Hash)]
    pub enum NamedNodePattern {
        NamedNode(NamedNode),
        Variable(Variable),
    }

    #[derive(Debug, Clone, PartialEq, Eq, Hash)]
    pub enum GroundTerm {
        NamedNode(NamedNode),
        Literal(Literal),
    }

    #[derive(Debug, Clone, PartialEq, Eq, Hash)]
    pub struct TriplePattern {
        pub subject: TermPattern,
        pub predicate: NamedNodePattern,
        pub object: TermPattern,
    }
}

pub mod algebra {
    use crate::term::{
        GroundTerm, Literal, NamedNode, NamedNodePattern, TermPattern, TriplePattern, Variable,
    };

    #[derive(Debug, Clone, PartialEq, Eq, Hash)]
    pub enum PropertyPathExpression {
        NamedNode(NamedNode),
        Reverse(Box<Self>),
        Sequence(Box<Self>, Box<Self>),
        Alternative(Box<Self>, Box<Self>),
        ZeroOrMore(Box<Self>),
        OneOrMore(Box<Self>),
        ZeroOrOne(Box<Self>),
        NegatedPropertySet(Vec<NamedNode>),
    }

    #[derive(Debug, Clone, PartialEq, Eq, Hash)]
    pub enum AggregateFunction {
        Count,
        Sum,
        Avg,
        Min,
        Max,
        GroupConcat { separator: Option<String> },
        Sample,
        Custom(NamedNode),
    }

    #[derive(Debug, Clone, PartialEq, Eq, Hash)]
    pub struct QueryDataset {
        pub default: Vec<NamedNode>,
        pub named: Option<Vec<NamedNode>>,
    }

    #[derive(Debug, Clone, PartialEq, Eq, Hash)]
    pub enum Function {
        Str,
        Lang,
        LangMatches,
        Datatype,
        Iri,
        BNode,
        Rand,
        Abs,
        Ceil,
        Floor,
        Round,
        Concat,
        SubStr,
        StrLen,
        Replace,
        UCase,
        LCase,
        EncodeForUri,
        Contains,
        StrStarts,
        StrEnds,
        StrBefore,
        StrAfter,
        Year,
        Month,
        Day,
        Hours,
        Minutes,
        Seconds,
        Timezone,
        Tz,
        Now,
        Uuid,
        StrUuid,
        Md5,
        Sha1,
        Sha256,
        Sha384,
        Sha512,
        StrLang,
        StrDt,
        IsIri,
        IsBlank,
        IsLiteral,
        IsNumeric,
        Regex,
        Custom(NamedNode),
    }

    #[derive(Debug, Clone, PartialEq, Eq, Hash)]
    pub enum Expression {
        NamedNode(NamedNode),
        Literal(Literal),
        Variable(Variable),
        Or(Box<Self>, Box<Self>),
        And(Box<Self>, Box<Self>),
        Equal(Box<Self>, Box<Self>),
        SameTerm(Box<Self>, Box<Self>),
        Greater(Box<Self>, Box<Self>),
        GreaterOrEqual(Box<Self>, Box<Self>),
        Less(Box<Self>, Box<Self>),
        LessOrEqual(Box<Self>, Box<Self>),
        In(Box<Self>, Vec<Self>),
        Add(Box<Self>, Box<Self>),
        Subtract(Box<Self>, Box<Self>),
        Multiply(Box<Self>, Box<Self>),
        Divide(Box<Self>, Box<Self>),
        UnaryPlus(Box<Self>),
        UnaryMinus(Box<Self>),
        Not(Box<Self>),
        Exists(Box<GraphPattern>),
        Bound(Variable),
        If(Box<Self>, Box<Self>, Box<Self>),
        Coalesce(Vec<Self>),
        FunctionCall(Function, Vec<Self>),
    }

    #[derive(Debug, Clone, PartialEq, Eq, Hash)]
    pub enum OrderExpression {
        Asc(Expression),
        Desc(Expression),
    }

    #[derive(Debug, Clone, PartialEq, Eq, Hash)]
    pub enum AggregateExpression {
        CountSolutions {
            distinct: bool,
        },
        FunctionCall {
            name: AggregateFunction,
            expr: Expression,
            distinct: bool,
        },
    }

    #[derive(Debug, Clone, PartialEq, Eq, Hash)]
    pub enum GraphPattern {
        Bgp {
            patterns: Vec<TriplePattern>,
        },
        Path {
            subject: TermPattern,
            path: PropertyPathExpression,
            object: TermPattern,
        },
        Join {
            left: Box<Self>,
            right: Box<Self>,
        },
        LeftJoin {
            left: Box<Self>,
            right: Box<Self>,
            expression: Option<Expression>,
        },
        Filter {
            expr: Expression,
            inner: Box<Self>,
        },
        Union {
            left: Box<Self>,
            right: Box<Self>,
        },
        Graph {
            name: NamedNodePattern,
            inner: Box<Self>,
        },
        Extend {
            inner: Box<Self>,
            variable: Variable,
            expression: Expression,
        },
        Minus {
            left: Box<Self>,
            right: Box<Self>,
        },
        Values {
            variables: Vec<Variable>,
            bindings: Vec<Vec<Option<GroundTerm>>>,
        },
        OrderBy {
            inner: Box<Self>,
            expression: Vec<OrderExpression>,
        },
        Project {
            inner: Box<Self>,
            variables: Vec<Variable>,
        },
        Distinct {
            inner: Box<Self>,
        },
        Reduced {
            inner: Box<Self>,
        },
        Slice {
            inner: Box<Self>,
            start: usize,
            length: Option<usize>,
        },
        Group {
            inner: Box<Self>,
            variables: Vec<Variable>,
            aggregates: Vec<(Variable, AggregateExpression)>,
        },
        Service {
            name: NamedNodePattern,
            inner: Box<Self>,
            silent: bool,
        },
    }

    impl Default for GraphPattern {
        fn default() -> Self {
            Self::Bgp {
                patterns: Vec::new(),
            }
        }
    }
}

use algebra::{GraphPattern, QueryDataset};
use term::TriplePattern;

#[derive(Debug, Clone, PartialEq, Eq, Hash)]
pub enum Query {
    Select {
        dataset: Option<QueryDataset>,
        pattern: GraphPattern,
        base_iri: Option<String>,
    },
    Construct {
        template: Vec<TriplePattern>,
        dataset: Option<QueryDataset>,
        pattern: GraphPattern,
        base_iri: Option<String>,
    },
    Describe {
        dataset: Option<QueryDataset>,
        pattern: GraphPattern,
        base_iri: Option<String>,
    },
    Ask {
        dataset: Option<QueryDataset>,
        pattern: GraphPattern,
        base_iri: Option<String>,
    },
}
