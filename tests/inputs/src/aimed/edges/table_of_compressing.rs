//! Every edge of an arc that compresses, by its name.

use super::{EdgeOf, empty_bounds, machines, reach};

pub const EDGES_OF_COMPRESSING: &[(&str, EdgeOf)] = &[
    ("26 ratio", machines::edge_26_ratio),
    ("26 ratio backward", machines::edge_26_ratio_backward),
    ("26 past the ratio", machines::edge_26_past_the_ratio),
    (
        "26 past the ratio backward",
        machines::edge_26_past_the_ratio_backward,
    ),
    ("26 in too low", reach::edge_26_in_too_low),
    ("26 in too low backward", reach::edge_26_in_too_low_backward),
    ("26 risen", reach::edge_26_risen),
    ("26 risen backward", reach::edge_26_risen_backward),
    ("26 fallen", reach::edge_26_fallen),
    ("26 fallen backward", reach::edge_26_fallen_backward),
    ("26 without machines", reach::edge_26_without_machines),
    (
        "26 without machines backward",
        reach::edge_26_without_machines_backward,
    ),
    (
        "26 without machines 1 up",
        reach::edge_26_without_machines_1_up,
    ),
    (
        "26 without machines 1 up backward",
        reach::edge_26_without_machines_1_up_backward,
    ),
    (
        "26 a thousandth past the reach",
        reach::edge_26_a_thousandth_past_the_reach,
    ),
    ("26 from 0 to 0", reach::edge_26_from_0_to_0),
    ("26 from 0 to 1", reach::edge_26_from_0_to_1),
    ("26 largest product", reach::edge_26_largest_product),
    (
        "26 product past 32 bits",
        reach::edge_26_product_past_32_bits,
    ),
    (
        "26 from 1,835 to 200,000",
        reach::edge_26_from_1_835_to_200_000,
    ),
    (
        "26 from 1,834 to 200,000",
        reach::edge_26_from_1_834_to_200_000,
    ),
    ("26 at the out bound", machines::edge_26_at_the_out_bound),
    (
        "26 past the out bound",
        machines::edge_26_past_the_out_bound,
    ),
    (
        "26 past the out bound backward",
        machines::edge_26_past_the_out_bound_backward,
    ),
    (
        "26 at an empty bound",
        empty_bounds::edge_26_at_an_empty_bound,
    ),
    (
        "26 at an empty bound backward",
        empty_bounds::edge_26_at_an_empty_bound_backward,
    ),
    (
        "26 past an empty bound",
        empty_bounds::edge_26_past_an_empty_bound,
    ),
    (
        "26 past an empty bound backward",
        empty_bounds::edge_26_past_an_empty_bound_backward,
    ),
    (
        "26 inner past an empty bound",
        empty_bounds::edge_26_inner_past_an_empty_bound,
    ),
    (
        "26 no demand past an empty bound",
        empty_bounds::edge_26_no_demand_past_an_empty_bound,
    ),
    (
        "26 past an empty bound in the last step",
        empty_bounds::edge_26_past_an_empty_bound_in_the_last_step,
    ),
    (
        "26 empty bound of 0",
        empty_bounds::edge_26_empty_bound_of_0,
    ),
    (
        "26 past an empty bound of 0",
        empty_bounds::edge_26_past_an_empty_bound_of_0,
    ),
    (
        "26 empty bound of 200,000",
        empty_bounds::edge_26_empty_bound_of_200_000,
    ),
    (
        "26 given bound of 1",
        empty_bounds::edge_26_given_bound_of_1,
    ),
    (
        "26 past a given bound of 1",
        empty_bounds::edge_26_past_a_given_bound_of_1,
    ),
    (
        "26 given bound above acthigh",
        empty_bounds::edge_26_given_bound_above_acthigh,
    ),
    (
        "26 given bound of 200,000",
        empty_bounds::edge_26_given_bound_of_200_000,
    ),
    (
        "26 regulating above acthigh",
        empty_bounds::edge_26_regulating_above_acthigh,
    ),
    ("26 compressing level", machines::edge_26_compressing_level),
    (
        "26 compressing 1 down",
        machines::edge_26_compressing_1_down,
    ),
    ("27 most passed", machines::edge_27_most_passed),
    ("27 flow passed", machines::edge_27_flow_passed),
    (
        "27 flow passed backward",
        machines::edge_27_flow_passed_backward,
    ),
    (
        "27 machine of an arc that regulates",
        machines::edge_27_machine_of_an_arc_that_regulates,
    ),
];
