//! Families: more children than a board has, more than a family may have, and texts as `prometheus`
//! prints them.

mod shared;

use dirgwako::core::Collector;
use dirgwako::*;
use shared::{both, lines, number};

/// Families that need three boards: each child counts on its own board, and a scrape has each once,
/// in order.
#[test]
fn more_children_than_a_board_has() {
    for (way, registry) in both() {
        let opts = HistogramOpts::new("sizes", "Sizes.").buckets(vec![10]);
        let sizes = register_histogram_vec_with_registry!(opts, &["at"], registry).unwrap();
        let opts = Opts::new("level", "Level.");
        let level = register_int_gauge_vec_with_registry!(opts, &["at"], registry).unwrap();
        let mut many = 0;
        while registry.boards() < 3 {
            let at = format!("{many:03}");
            sizes.with_label_values(&[&at]).observe(many);
            level.with_label_values(&[&at]).set(many as i64);
            many += 1;
        }
        assert!(many > 2, "{way}");
        for at in 0..many {
            let at = format!("{at:03}");
            sizes.with_label_values(&[&at]).observe(1);
            level.with_label_values(&[&at]).inc();
        }
        let text = registry.gather_text().unwrap();
        let told: Vec<String> = lines(&text)
            .iter()
            .filter(|it| it.starts_with("level"))
            .map(|it| it.to_string())
            .collect();
        let meant: Vec<String> =
            (0..many).map(|at| format!("level{{at=\"{at:03}\"}} {}", at + 1)).collect();
        assert_eq!(told, meant, "{way}");
        for at in 0..many {
            let sum = number(&text, &format!("sizes_sum{{at=\"{at:03}\"}}"));
            assert_eq!(sum, at as i64 + 1, "{way}");
        }
        let last = sizes.with_label_values(&[&format!("{:03}", many - 1)]);
        assert_eq!((last.get_sample_sum(), last.get_sample_count()), (many, 2), "{way}");
        assert_eq!(registry.refused(), 0, "{way}");
    }
}

/// The 257th child is refused (46) by `get_metric_..`, and `with_label_values` gives a handle that
/// counts for nobody. Each of its counts is told, by `refused` and by a series of its own, and no
/// other series moves.
#[test]
fn more_children_than_a_family_may_have() {
    for (way, registry) in both() {
        let opts = Opts::new("users_total", "Users.");
        let users = register_int_counter_vec_with_registry!(opts, &["user"], registry).unwrap();
        for user in 0..256 {
            users.with_label_values(&[&user.to_string()]).inc();
        }
        let before = registry.gather_text().unwrap();
        assert!(!before.contains("dirgwako_refused_total"), "{way}");
        let error = users.get_metric_with_label_values(&["late"]).unwrap_err();
        assert_eq!((error.number(), error.name()), (Some(46), Some("users_total")), "{way}");
        assert_eq!(registry.refused(), 0, "{way}");
        let nobody = users.with_label_values(&["late"]);
        nobody.inc_by(5);
        nobody.inc();
        assert_eq!((nobody.get(), registry.refused()), (0, 3), "{way}");
        let error = registry.publish(|batch| batch.inc(&nobody)).unwrap_err();
        assert_eq!(error.number(), Some(22), "{way}");
        users.with_label_values(&["7"]).inc();
        let after = registry.gather_text().unwrap();
        assert_eq!(number(&after, "dirgwako_refused_total"), 3, "{way}");
        assert_eq!(number(&after, "users_total{user=\"7\"}"), 2, "{way}");
        assert_eq!(lines(&after).len(), lines(&before).len() + 1, "{way}");
        nobody.inc();
        let later = registry.gather_text().unwrap();
        assert_eq!(number(&later, "dirgwako_refused_total"), 4, "{way}");
    }
}

/// A family that is registered when it has too many children is there with those that found room.
#[test]
fn registered_with_too_many_children() {
    for (way, registry) in both() {
        let users = IntGaugeVec::new(Opts::new("users", "Users."), &["user"]).unwrap();
        for user in 0..300 {
            users.with_label_values(&[&user.to_string()]).set(1);
        }
        let error = registry.register(Box::new(users.clone())).unwrap_err();
        assert_eq!(error.number(), Some(46), "{way}");
        let text = registry.gather_text().unwrap();
        let shown = lines(&text).iter().filter(|it| it.starts_with("users{")).count();
        assert_eq!((shown, registry.refused()), (256, 44), "{way}");
        assert_eq!(registry.register(Box::new(users)).unwrap_err().number(), Some(19), "{way}");
    }
}

/// Labels by their names, in any order; others are refused (21), and `with_label_values` panics by
/// them, as in `prometheus`.
#[test]
fn labels_by_name() {
    let family = IntCounterVec::new(Opts::new("a_total", "A."), &["x", "y"]).unwrap();
    family.with(&labels! {"y" => "2", "x" => "1"}).inc();
    assert_eq!(family.with_label_values(&["1", "2"]).get(), 1);
    for labels in [labels! {"x" => "1"}, labels! {"x" => "1", "z" => "2"}] {
        let error = family.get_metric_with(&labels).unwrap_err();
        assert!(matches!(error, Error::InconsistentCardinality { expect: 2, got: 1, .. }));
    }
    let error = family.get_metric_with_label_values(&["1", "2", "3"]).unwrap_err();
    assert_eq!((error.number(), error.name()), (Some(21), Some("a_total")));
    assert!(std::panic::catch_unwind(|| family.with_label_values(&["1"])).is_err());
    let long = "v".repeat(257);
    assert_eq!(family.get_metric_with_label_values(&[&long, ""]).unwrap_err().number(), Some(3));
    family.with_label_values(&[&long, ""]).inc();
}

/// Prefix, constant labels, labels of the registry and the order of all, byte for byte as
/// `prometheus` prints them.
#[test]
fn prefix_and_constant_labels() {
    let labels = labels! {"zone".to_string() => "a\"b\\\n".to_string()};
    let registry = Registry::new_custom(Some("shop".into()), Some(labels)).unwrap();
    let opts = Opts::new("hits_total", "Hits \\ of\nall.").const_label("node", "7");
    let hits = register_int_counter_vec_with_registry!(opts, &["path", "code"], registry).unwrap();
    hits.with_label_values(&["/b", "200"]).inc_by(3);
    hits.with_label_values(&["/a", "404"]).inc();
    hits.with_label_values(&["/a", "200"]).inc_by(2);
    let opts = HistogramOpts::new("bytes", "Bytes.").subsystem("web").buckets(vec![10, 200]);
    let bytes = register_histogram_with_registry!(opts.const_label("node", "7"), registry).unwrap();
    bytes.observe(11);
    let zone = "zone=\"a\\\"b\\\\\\n\"";
    let meant = format!(
        "# HELP shop_hits_total Hits \\\\ of\\nall.\n\
         # TYPE shop_hits_total counter\n\
         shop_hits_total{{code=\"200\",node=\"7\",path=\"/a\",{zone}}} 2\n\
         shop_hits_total{{code=\"200\",node=\"7\",path=\"/b\",{zone}}} 3\n\
         shop_hits_total{{code=\"404\",node=\"7\",path=\"/a\",{zone}}} 1\n\
         # HELP shop_web_bytes Bytes.\n\
         # TYPE shop_web_bytes histogram\n\
         shop_web_bytes_bucket{{node=\"7\",{zone},le=\"10\"}} 0\n\
         shop_web_bytes_bucket{{node=\"7\",{zone},le=\"200\"}} 1\n\
         shop_web_bytes_bucket{{node=\"7\",{zone},le=\"+Inf\"}} 1\n\
         shop_web_bytes_sum{{node=\"7\",{zone}}} 11\n\
         shop_web_bytes_count{{node=\"7\",{zone}}} 1\n"
    );
    assert_eq!(registry.gather_text().unwrap(), meant);
    assert_eq!(TextEncoder::new().encode_to_string(&registry.gather()).unwrap(), meant);
    let clash = IntGauge::with_opts(Opts::new("g", "G.").const_label("zone", "b")).unwrap();
    assert_eq!(registry.register(Box::new(clash)).unwrap_err().number(), Some(7));
}

/// Microseconds are shown as exact seconds: bounds and sums.
#[test]
fn seconds() {
    for (way, registry) in both() {
        let opts = HistogramOpts::new("answer_seconds", "Answers.").buckets(vec![0.001, 0.5]);
        let answers = HistogramVec::new(opts, &["path"]).unwrap();
        answers.with_label_values(&["/"]).observe(400);
        registry.register(Box::new(answers.clone())).unwrap();
        answers.with_label_values(&["/"]).observe(250_000);
        answers
            .with_label_values(&["/"])
            .observe_for(std::time::Duration::from_nanos(2_000_001_999));
        answers.with_label_values(&["/"]).start_timer().stop_and_discard();
        let meant = "# HELP answer_seconds Answers.\n# TYPE answer_seconds histogram\n\
                     answer_seconds_bucket{path=\"/\",le=\"0.001\"} 1\n\
                     answer_seconds_bucket{path=\"/\",le=\"0.5\"} 2\n\
                     answer_seconds_bucket{path=\"/\",le=\"+Inf\"} 3\n\
                     answer_seconds_sum{path=\"/\"} 2.250401\n\
                     answer_seconds_count{path=\"/\"} 3\n";
        assert_eq!(registry.gather_text().unwrap(), meant, "{way}");
        let child = answers.with_label_values(&["/"]);
        assert_eq!((child.get_sample_sum(), child.get_sample_count()), (2_250_401, 3), "{way}");
        let millis = std::time::Duration::from_millis(2);
        child.observe_closure_duration(|| std::thread::sleep(millis));
        assert!(child.get_sample_sum() >= 2_252_401, "{way}");
    }
}

/// The default bounds are those of `prometheus`, in seconds.
#[test]
fn default_bounds() {
    let registry = Registry::new();
    register_histogram_with_registry!("answer_seconds", "Answers.", registry).unwrap();
    let text = registry.gather_text().unwrap();
    let bounds: Vec<&str> =
        text.split("le=\"").skip(1).filter_map(|rest| rest.split('"').next()).collect();
    let mut meant: Vec<String> = DEFAULT_BUCKETS.iter().map(|bound| bound.to_string()).collect();
    meant.push("+Inf".into());
    assert_eq!(bounds, meant);
}

/// Names, labels and bounds are refused by their numbers, and the error has the name.
#[test]
fn refused_by_number() {
    let counter = |name: &str, help: &str| IntCounter::new(name, help).unwrap_err();
    assert_eq!(counter("", "A.").number(), Some(1));
    assert_eq!(counter("a-b", "A.").number(), Some(2));
    assert_eq!(counter(&"a".repeat(129), "A.").number(), Some(3));
    assert_eq!(counter("a", " A.").number(), Some(5));
    assert_eq!(counter("a-b", "A.").name(), Some("a-b"));
    let family = |labels: &[&str]| {
        IntCounterVec::new(Opts::new("a_total", "A."), labels).unwrap_err().number()
    };
    assert_eq!(family(&["a", "b", "a"]), Some(7));
    assert_eq!(family(&["__a"]), Some(4));
    assert_eq!(family(&["a b"]), Some(2));
    assert_eq!(family(&["a", "b", "c", "d", "e", "f", "g", "h", "i"]), Some(9));
    let histogram = |opts: HistogramOpts, labels: &[&str]| {
        HistogramVec::new(opts, labels).unwrap_err().number()
    };
    assert_eq!(histogram(HistogramOpts::new("a", "A."), &["le"]), Some(8));
    assert_eq!(histogram(HistogramOpts::new("a", "A.").buckets(vec![2, 2]), &[]), Some(10));
    let registry = Registry::new();
    let digits = IntCounter::with_opts(Opts::new("a_total", "A.").digits(10)).unwrap();
    assert_eq!(registry.register(Box::new(digits)).unwrap_err().number(), Some(43));
    assert!(matches!(Registry::new_custom(Some(String::new()), None), Err(Error::Msg(_))));
    let labelled = Opts::new("a_total", "A.").variable_label("x");
    assert_eq!(IntCounter::with_opts(labelled).unwrap_err().number(), Some(21));
}

/// A name is one metric's, and a metric is one registry's. What was refused may be registered
/// elsewhere.
#[test]
fn registered_once() {
    let (registry, other) = (Registry::new(), Registry::new());
    let a = IntCounter::new("a_total", "A.").unwrap();
    let same = IntCounter::new("a_total", "The same.").unwrap();
    registry.register(Box::new(a.clone())).unwrap();
    let again: [(&Registry, Box<dyn Collector>); 3] = [
        (&registry, Box::new(a.clone())),
        (&other, Box::new(a.clone())),
        (&registry, Box::new(same.clone())),
    ];
    for (registry, metric) in again {
        let error = registry.register(metric).unwrap_err();
        assert!(matches!(&error, Error::AlreadyReg { name } if name == "a_total"));
        assert!(
            error.to_string().starts_with("a_total: ") && error.to_string().ends_with("(19)"),
            "{error}"
        );
    }
    other.register(Box::new(same.clone())).unwrap();
    same.inc();
    assert_eq!((a.get(), same.get()), (0, 1));
    // A histogram's lines share no name with another metric.
    let opts = HistogramOpts::new("sizes", "Sizes.").buckets(vec![1]);
    register_histogram_with_registry!(opts, registry).unwrap();
    let clash = IntCounter::new("sizes_count", "It clashes.").unwrap();
    assert_eq!(registry.register(Box::new(clash)).unwrap_err().number(), Some(19));
}

/// The 129th family is refused (23), and may be registered elsewhere.
#[test]
fn too_many_families() {
    let registry = Registry::new();
    for at in 0..128 {
        register_int_counter_with_registry!(format!("a{at}_total"), "A.", registry).unwrap();
    }
    let late = IntCounter::new("late_total", "Late.").unwrap();
    late.inc();
    let error = registry.register(Box::new(late.clone())).unwrap_err();
    assert_eq!((error.number(), error.name()), (Some(23), Some("late_total")));
    Registry::new().register(Box::new(late.clone())).unwrap();
    assert_eq!(late.get(), 1);
}
