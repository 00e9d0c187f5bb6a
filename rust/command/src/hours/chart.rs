//! `--chart`: each hour a dot, so that one sees a gale that looks like a calm.

use std::error::Error;
use std::ffi::OsString;
use std::ops::Range;
use std::path::Path;

use plotters::prelude::*;

use crate::file::Beside;
use crate::given::names;
use crate::hours::hour::Hour;
use crate::hours::table::{Source, Table};

const SIZE: (u32, u32) = (800, 500);
const FONT: (&str, u32) = ("sans-serif", 16);
const SOUND: RGBColor = RGBColor(70, 110, 160);
const LOST: RGBColor = RGBColor(210, 30, 30);

pub struct Chart {
    file: Beside,
    axes: [String; 2],
    sources: [Source; 2],
    sound: Vec<(f64, f64)>,
    lost: Vec<(f64, f64)>,
}

impl Chart {
    /// `X,Y`, and the file, which may be none of the others.
    pub fn new(asked: &[OsString], table: &Table, others: &[&Path]) -> Result<Chart, String> {
        let axes: [String; 2] = names(&asked[0].to_string_lossy())
            .try_into()
            .map_err(|_| "--chart takes two columns, X,Y, and a file")?;
        let source = |axis: usize| table.source(&axes[axis]).map_err(|words| format!("--chart: {words}"));
        Ok(Chart {
            sources: [source(0)?, source(1)?],
            file: Beside::new(Path::new(&asked[1]), others)?,
            axes,
            sound: Vec::new(),
            lost: Vec::new(),
        })
    }

    /// An hour without two numbers has no dot.
    pub fn add(&mut self, hour: &Hour) {
        let [x, y] = self.sources.map(|source| hour.entry(source).number());
        if let (Some(x), Some(y), Ok(end)) = (x, y, &hour.end) {
            let dots = if end.loss > 0 { &mut self.lost } else { &mut self.sound };
            dots.push((x, y));
        }
    }

    pub fn finish(mut self) -> Result<(), String> {
        let picture = self.draw().map_err(|error| format!("--chart: {error}"))?;
        self.file.write(picture.as_bytes())?;
        self.file.finish()
    }

    fn draw(&self) -> Result<String, Box<dyn Error + '_>> {
        let mut picture = String::new();
        {
            let area = SVGBackend::with_string(&mut picture, SIZE).into_drawing_area();
            area.fill(&WHITE)?;
            let mut chart = ChartBuilder::on(&area)
                .margin(16)
                .x_label_area_size(48)
                .y_label_area_size(72)
                .build_cartesian_2d(self.span(|dot| dot.0), self.span(|dot| dot.1))?;
            let whole = |number: &f64| format!("{number:.0}");
            let mut mesh = chart.configure_mesh();
            mesh.x_desc(&self.axes[0])
                .y_desc(&self.axes[1])
                .label_style(FONT)
                .axis_desc_style(FONT);
            mesh.x_label_formatter(&whole)
                .y_label_formatter(&whole)
                .max_light_lines(0)
                .draw()?;
            for (dots, colour, words) in [(&self.sound, SOUND, "exact"), (&self.lost, LOST, "digits lost")] {
                let circles = dots.iter().map(|dot| Circle::new(*dot, 4, colour.filled()));
                let series = chart.draw_series(circles)?.label(words);
                series.legend(move |(x, y)| Circle::new((x + 10, y), 4, colour.filled()));
            }
            let mut legend = chart.configure_series_labels();
            legend
                .position(SeriesLabelPosition::UpperLeft)
                .label_font(FONT)
                .border_style(BLACK)
                .background_style(WHITE)
                .draw()?;
            area.present()?;
        }
        Ok(picture)
    }

    /// From the least to the largest, with a little room; never empty.
    fn span(&self, along: fn(&(f64, f64)) -> f64) -> Range<f64> {
        let along = || self.sound.iter().chain(&self.lost).map(along);
        let (least, most) = (along().fold(f64::MAX, f64::min), along().fold(f64::MIN, f64::max));
        match least <= most {
            true => {
                let room = ((most - least) / 20.0).max(1.0);
                least - room..most + room
            }
            false => 0.0..1.0,
        }
    }
}
