//! haproxy, nginx and socat, as they are after installation: each hands on the connections of one port to another. They
//! are told to stay in the foreground, and not to delay small messages where that isn't so already.

use std::ffi::OsString;
use std::path::Path;
use std::{fs, io};

/// From which port to which one on 127.0.0.1.
pub struct Ports {
    pub from: u16,
    pub to: u16,
}

pub struct Proxy {
    pub name: &'static str,
    /// The arguments; files that these name are written to the folder.
    pub arguments: fn(&Ports, &Path) -> io::Result<Vec<OsString>>,
}

/// What the others are compared with.
pub const REFERENCE: &str = "haproxy";

pub const ALL: [Proxy; 3] = [
    Proxy { name: REFERENCE, arguments: haproxy },
    Proxy { name: "nginx", arguments: nginx },
    Proxy { name: "socat", arguments: socat },
];

fn haproxy(Ports { from, to }: &Ports, folder: &Path) -> io::Result<Vec<OsString>> {
    let file = folder.join("haproxy.cfg");
    let text = format!(
        "defaults
    mode tcp
    timeout connect 5s
    timeout client 1m
    timeout server 1m
listen relay
    bind 127.0.0.1:{from}
    server receiver 127.0.0.1:{to}
"
    );
    fs::write(&file, text)?;
    Ok(vec!["-db".into(), "-f".into(), file.into()])
}

/// Where Debian has the part of nginx that is needed; elsewhere it may be built in.
const NGINX_STREAM: &str = "/usr/lib/nginx/modules/ngx_stream_module.so";

fn nginx(Ports { from, to }: &Ports, folder: &Path) -> io::Result<Vec<OsString>> {
    let file = folder.join("nginx.conf");
    let module = if Path::new(NGINX_STREAM).exists() { format!("load_module {NGINX_STREAM};") } else { String::new() };
    let text = format!(
        "{module}
daemon off;
pid {}/nginx.pid;
error_log stderr;
events {{ worker_connections 512; }}
stream {{
    server {{
        listen 127.0.0.1:{from};
        proxy_pass 127.0.0.1:{to};
    }}
}}
",
        folder.display()
    );
    fs::write(&file, text)?;
    Ok(vec!["-e".into(), "stderr".into(), "-p".into(), folder.into(), "-c".into(), file.into()])
}

fn socat(Ports { from, to }: &Ports, _: &Path) -> io::Result<Vec<OsString>> {
    let listen = format!("TCP-LISTEN:{from},bind=127.0.0.1,reuseaddr,fork,nodelay");
    let connect = format!("TCP:127.0.0.1:{to},nodelay");
    Ok(vec![listen.into(), connect.into()])
}
