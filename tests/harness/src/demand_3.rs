//! Gas in a set changes by what is brought in, up to the residual.

use inputs::model::Case;

/// Holds a ledger's six figures against demand 3; says what is wrong.
pub fn check(case: &Case, s: i64, t: i64, figures: &[i64]) -> Result<(), String> {
    let wide: Vec<i128> = figures.iter().copied().map(i128::from).collect();
    let &[nodes, inner_pipes, gas_at_s, gas_at_t, brought_in, residual] = wide.as_slice() else {
        return Err(format!("{} figures in place of six", wide.len()));
    };
    let off = (gas_at_t - gas_at_s - brought_in).abs();
    let steps = i128::from(t) - i128::from(s);
    let most = (nodes + inner_pipes) * steps * i128::from(case.mass_tolerance);
    if off > residual {
        return Err(format!(
            "gas is off by {off}, more than the residual {residual}"
        ));
    }
    if residual > most {
        return Err(format!("the residual {residual} is more than {most}"));
    }
    Ok(())
}
