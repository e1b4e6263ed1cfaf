
// Appended to queries.rs in the build folder: what the driver calls. The functions above are private.

/// The sets in scope and hidden.
pub(crate) fn scope(pattern: &GraphPattern) -> (HashSet<Variable>, HashSet<Variable>) {
    let variables = variables_in_pattern(pattern);
    (variables.in_scope, variables.hidden)
}

pub(crate) fn rename(
    pattern: &GraphPattern,
    mapping: &HashMap<Variable, Variable>,
) -> GraphPattern {
    rename_in_graph_pattern(pattern, mapping)
}

/// The pattern renamed by its own mapping under the prefix, without join variables.
pub(crate) fn standardize(prefix: &str, pattern: &GraphPattern) -> GraphPattern {
    let mapping = standardize_variables(prefix, &variables_in_pattern(pattern), &[]);
    rename_in_graph_pattern(pattern, &mapping)
}
