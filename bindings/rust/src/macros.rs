//! The macros of `prometheus`.

/// A map of labels: `labels! {"code" => "200"}`.
///
/// ```
/// let labels = dirgwako::labels! {"code" => "200", "zone" => "a"};
/// assert_eq!((labels.len(), labels["code"]), (2, "200"));
/// ```
#[macro_export]
macro_rules! labels {
    ($($name:expr => $value:expr),* $(,)?) => {
        ::std::collections::HashMap::from([$(($name, $value)),*])
    };
}

/// [`Opts`](crate::Opts) of a name, a help and maps of constant labels.
///
/// ```
/// use dirgwako::{labels, opts};
/// let opts = opts!("hits_total", "Hits.", labels! {"zone" => "a"});
/// assert_eq!(opts.const_labels["zone"], "a");
/// ```
#[macro_export]
macro_rules! opts {
    ($name:expr, $help:expr $(, $labels:expr)* $(,)?) => {{
        let opts = $crate::Opts::new($name, $help);
        $(let opts = $labels.iter().fold(opts, |opts, (name, value)| {
            opts.const_label(name.to_string(), value.to_string())
        });)*
        opts
    }};
}

/// [`HistogramOpts`](crate::HistogramOpts) of a name and a help; and of bounds; and of constant
/// labels.
///
/// ```
/// use dirgwako::{histogram_opts, labels};
/// let labels = labels! {"zone".to_string() => "a".to_string()};
/// let opts = histogram_opts!("answer_seconds", "Answers.", vec![0.1, 1.0], labels);
/// assert_eq!(opts.fq_name(), "answer_seconds");
/// ```
#[macro_export]
macro_rules! histogram_opts {
    ($name:expr, $help:expr $(,)?) => {
        $crate::HistogramOpts::new($name, $help)
    };
    ($name:expr, $help:expr, $buckets:expr $(,)?) => {
        $crate::HistogramOpts::new($name, $help).buckets($buckets)
    };
    ($name:expr, $help:expr, $buckets:expr, $labels:expr $(,)?) => {
        $crate::HistogramOpts::new($name, $help).buckets($buckets).const_labels($labels)
    };
}

/// Registers what was made, and answers it.
#[doc(hidden)]
#[macro_export]
macro_rules! __register {
    ($made:expr, $registry:expr) => {
        match $made {
            Ok(metric) => $registry.register(Box::new(metric.clone())).map(|()| metric),
            Err(error) => Err(error),
        }
    };
}

macro_rules! registering {
    (
        $d:tt $metric:ident $vec:ident: $one:ident $one_at:ident
        $many:ident $many_at:ident $what:literal
    ) => {
        #[doc = concat!("Registers a ", $what, " at the default registry: of a name and a help, or of")]
        /// [`Opts`](crate::Opts).
        ///
        /// ```
        #[doc = concat!("let metric = dirgwako::", stringify!($one), "!(\"jobs\", \"Jobs.\")")]
        ///     .unwrap();
        /// metric.inc();
        /// assert_eq!(metric.get(), 1);
        /// ```
        #[macro_export]
        macro_rules! $one {
            ($d name:expr, $d help:expr $d(,)?) => {
                $crate::$one!($crate::opts!($d name, $d help))
            };
            ($d opts:expr $d(,)?) => {
                $crate::__register!($crate::$metric::with_opts($d opts), $crate::default_registry())
            };
        }

        #[doc = concat!("Registers a ", $what, " at a registry, which is named last.")]
        ///
        /// ```
        /// let registry = dirgwako::Registry::new();
        #[doc = concat!("let metric = dirgwako::", stringify!($one_at), "!(\"jobs\", \"Jobs.\", registry)")]
        ///     .unwrap();
        /// metric.inc();
        /// assert!(registry.gather_text().unwrap().ends_with("\njobs 1\n"));
        /// ```
        #[macro_export]
        macro_rules! $one_at {
            ($d name:expr, $d help:expr, $d registry:expr $d(,)?) => {
                $crate::$one_at!($crate::opts!($d name, $d help), $d registry)
            };
            ($d opts:expr, $d registry:expr $d(,)?) => {
                $crate::__register!($crate::$metric::with_opts($d opts), $d registry)
            };
        }

        #[doc = concat!("Registers a family of ", $what, "s at the default registry: of a name, a help")]
        /// and labels, or of [`Opts`](crate::Opts) and labels.
        ///
        /// ```
        #[doc = concat!("let family = dirgwako::", stringify!($many), "!(\"jobs\", \"Jobs.\", &[\"kind\"])")]
        ///     .unwrap();
        /// family.with_label_values(&["mail"]).inc();
        /// assert_eq!(family.with_label_values(&["mail"]).get(), 1);
        /// ```
        #[macro_export]
        macro_rules! $many {
            ($d name:expr, $d help:expr, $d labels:expr $d(,)?) => {
                $crate::$many!($crate::opts!($d name, $d help), $d labels)
            };
            ($d opts:expr, $d labels:expr $d(,)?) => {
                $crate::__register!(
                    $crate::$vec::new($d opts, $d labels),
                    $crate::default_registry()
                )
            };
        }

        #[doc = concat!("Registers a family of ", $what, "s at a registry, which is named last.")]
        ///
        /// ```
        /// let registry = dirgwako::Registry::new();
        #[doc = concat!("let family = dirgwako::", stringify!($many_at), "!(\"jobs\", \"Jobs.\", &[\"kind\"], registry)")]
        ///     .unwrap();
        /// family.with_label_values(&["mail"]).inc();
        /// assert!(registry.gather_text().unwrap().ends_with("\njobs{kind=\"mail\"} 1\n"));
        /// ```
        #[macro_export]
        macro_rules! $many_at {
            ($d name:expr, $d help:expr, $d labels:expr, $d registry:expr $d(,)?) => {
                $crate::$many_at!($crate::opts!($d name, $d help), $d labels, $d registry)
            };
            ($d opts:expr, $d labels:expr, $d registry:expr $d(,)?) => {
                $crate::__register!($crate::$vec::new($d opts, $d labels), $d registry)
            };
        }
    };
}

registering! {
    $ IntCounter IntCounterVec: register_int_counter register_int_counter_with_registry
    register_int_counter_vec register_int_counter_vec_with_registry "counter"
}
registering! {
    $ Counter CounterVec: register_counter register_counter_with_registry
    register_counter_vec register_counter_vec_with_registry "counter"
}
registering! {
    $ IntGauge IntGaugeVec: register_int_gauge register_int_gauge_with_registry
    register_int_gauge_vec register_int_gauge_vec_with_registry "gauge"
}
registering! {
    $ Gauge GaugeVec: register_gauge register_gauge_with_registry
    register_gauge_vec register_gauge_vec_with_registry "gauge"
}

/// Registers a histogram at the default registry: of a name, a help and bounds (or the default
/// ones), or of [`HistogramOpts`](crate::HistogramOpts).
///
/// ```
/// use dirgwako::register_histogram;
/// let answers = register_histogram!("answer_seconds", "Answers.", vec![0.1, 1.0]).unwrap();
/// answers.start_timer().observe_duration();
/// assert_eq!(answers.get_sample_count(), 1);
/// ```
#[macro_export]
macro_rules! register_histogram {
    ($name:expr, $help:expr $(,)?) => {
        $crate::register_histogram!($crate::histogram_opts!($name, $help))
    };
    ($name:expr, $help:expr, $buckets:expr $(,)?) => {
        $crate::register_histogram!($crate::histogram_opts!($name, $help, $buckets))
    };
    ($opts:expr $(,)?) => {
        $crate::__register!($crate::Histogram::with_opts($opts), $crate::default_registry())
    };
}

/// Registers a histogram at a registry, which is named last.
///
/// ```
/// let registry = dirgwako::Registry::new();
/// use dirgwako::register_histogram_with_registry;
/// let bounds = vec![100, 1000];
/// let bytes =
///     register_histogram_with_registry!("answer_bytes", "Bytes.", bounds, registry).unwrap();
/// bytes.observe(300);
/// assert!(registry.gather_text().unwrap().contains("answer_bytes_sum 300\n"));
/// ```
#[macro_export]
macro_rules! register_histogram_with_registry {
    ($name:expr, $help:expr, $buckets:expr, $registry:expr $(,)?) => {
        $crate::register_histogram_with_registry!(
            $crate::histogram_opts!($name, $help, $buckets),
            $registry
        )
    };
    ($name:expr, $help:expr, $registry:expr $(,)?) => {
        $crate::register_histogram_with_registry!($crate::histogram_opts!($name, $help), $registry)
    };
    ($opts:expr, $registry:expr $(,)?) => {
        $crate::__register!($crate::Histogram::with_opts($opts), $registry)
    };
}

/// Registers a family of histograms at the default registry: of a name, a help, labels and bounds
/// (or the default ones), or of [`HistogramOpts`](crate::HistogramOpts) and labels.
///
/// ```
/// use dirgwako::register_histogram_vec;
/// let answers = register_histogram_vec!("answer_seconds", "Answers.", &["route"]).unwrap();
/// answers.with_label_values(&["/"]).observe(1500);
/// assert_eq!(answers.with_label_values(&["/"]).get_sample_sum(), 1500);
/// ```
#[macro_export]
macro_rules! register_histogram_vec {
    ($name:expr, $help:expr, $labels:expr, $buckets:expr $(,)?) => {
        $crate::register_histogram_vec!($crate::histogram_opts!($name, $help, $buckets), $labels)
    };
    ($name:expr, $help:expr, $labels:expr $(,)?) => {
        $crate::register_histogram_vec!($crate::histogram_opts!($name, $help), $labels)
    };
    ($opts:expr, $labels:expr $(,)?) => {
        $crate::__register!($crate::HistogramVec::new($opts, $labels), $crate::default_registry())
    };
}

/// Registers a family of histograms at a registry, which is named last.
///
/// ```
/// let registry = dirgwako::Registry::new();
/// use dirgwako::register_histogram_vec_with_registry;
/// let answers =
///     register_histogram_vec_with_registry!("answer_seconds", "Answers.", &["route"], registry)
///         .unwrap();
/// answers.with_label_values(&["/"]).observe(1500);
/// assert!(registry.gather_text().unwrap().contains("answer_seconds_sum{route=\"/\"} 0.0015\n"));
/// ```
#[macro_export]
macro_rules! register_histogram_vec_with_registry {
    ($name:expr, $help:expr, $labels:expr, $buckets:expr, $registry:expr $(,)?) => {
        $crate::register_histogram_vec_with_registry!(
            $crate::histogram_opts!($name, $help, $buckets),
            $labels,
            $registry
        )
    };
    ($name:expr, $help:expr, $labels:expr, $registry:expr $(,)?) => {
        $crate::register_histogram_vec_with_registry!(
            $crate::histogram_opts!($name, $help),
            $labels,
            $registry
        )
    };
    ($opts:expr, $labels:expr, $registry:expr $(,)?) => {
        $crate::__register!($crate::HistogramVec::new($opts, $labels), $registry)
    };
}
