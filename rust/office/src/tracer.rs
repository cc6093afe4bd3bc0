//! strace on a running service: it sees its system calls, or makes them fail.

use crate::service::Service;
use std::fs;
use std::path::{Path, PathBuf};
use std::process::{Child, Command, Stdio};
use std::thread::sleep;
use std::time::Duration;

pub struct Tracer {
    child: Child,
    trace: PathBuf,
}

impl Tracer {
    /// Traces all threads of a service, with more options.
    pub fn of(service: &Service, folder: &Path, options: &[&str]) -> Result<Tracer, String> {
        let trace = folder.join("trace");
        let process = service.process().to_string();
        let child = Command::new("strace")
            .args(["-f", "-o"])
            .arg(&trace)
            .args(options)
            .args(["-p", &process])
            .stderr(Stdio::null())
            .spawn()
            .map_err(|error| format!("strace: {error}"))?;
        let tracer = Tracer { child, trace };
        for _ in 0..2000 {
            if all_traced(&process)? {
                return Ok(tracer);
            }
            sleep(Duration::from_millis(5));
        }
        Err("strace does not trace it".to_string())
    }

    /// What was traced up to the service's end.
    pub fn ended(mut self) -> Result<String, String> {
        self.child.wait().map_err(|error| error.to_string())?;
        fs::read_to_string(&self.trace).map_err(|error| error.to_string())
    }
}

/// A service goes on by itself when its tracer is gone.
impl Drop for Tracer {
    fn drop(&mut self) {
        if let Ok(None) = self.child.try_wait() {
            let _ = Command::new("kill").arg(self.child.id().to_string()).status();
            let _ = self.child.wait();
        }
    }
}

fn all_traced(process: &str) -> Result<bool, String> {
    let threads = fs::read_dir(format!("/proc/{process}/task")).map_err(|error| error.to_string())?;
    let traced = |thread: fs::DirEntry| {
        let status = fs::read_to_string(thread.path().join("status")).unwrap_or_default();
        status.lines().any(|line| line.starts_with("TracerPid:") && !line.ends_with("\t0"))
    };
    Ok(threads.filter_map(Result::ok).all(traced))
}
