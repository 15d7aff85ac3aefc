//! The forecast: the leaves of a model's two built-in trees, multiplied, which is how many queries judging by them makes.

use super::model::Model;
use super::tree::Tree;
use crate::Answer;

/// The built-in trees of a model, of the heights of its least and its greatest levels.
pub fn built_in_trees(model: &Model) -> [Tree; 2] {
    [model.least_levels(), model.greatest_levels()].map(|h| Tree::built_in(model.lines(), h))
}

pub fn forecast(model: &Model) -> u64 {
    built_in_trees(model).iter().map(Tree::leaf_count).product()
}

/// The refusal of a model whose forecast is over the ceiling.
pub fn over(model: &Model, ceiling: u64) -> Option<Answer> {
    let forecast = forecast(model);
    (forecast > ceiling).then(|| Answer::over(forecast))
}

/// What a forecast depends on.
#[derive(Clone, Copy, Debug, PartialEq, Eq)]
pub struct Size {
    pub lines: usize,
    pub least: usize,
    pub greatest: usize,
}

/// Every size that a model may have, with its forecast.
pub fn forecasts() -> Vec<(Size, u64)> {
    let mut forecasts = Vec::new();
    for lines in 1..=64 {
        let leaves: Vec<u64> = (0..=8).map(|h| Tree::built_in(lines, h).leaf_count()).collect();
        for levels in 1..=8 {
            for least in 0..=levels {
                let greatest = levels - least;
                forecasts.push((Size { lines, least, greatest }, leaves[least] * leaves[greatest]));
            }
        }
    }
    forecasts
}

/// The largest forecast that is not over the ceiling and the smallest that is, each with all of its sizes.
pub fn forecasts_around(ceiling: u64) -> [(u64, Vec<Size>); 2] {
    let all = forecasts();
    let (within, over): (Vec<u64>, Vec<u64>) =
        all.iter().map(|&(_, forecast)| forecast).partition(|&forecast| forecast <= ceiling);
    [within.into_iter().max(), over.into_iter().min()].map(|nearest| {
        let nearest = nearest.expect("there are forecasts on both sides of the ceiling");
        let of_size = all.iter().filter(|&&(_, forecast)| forecast == nearest);
        (nearest, of_size.map(|&(size, _)| size).collect())
    })
}
