//! Where a relay is, as a user writes it.

use std::fmt;
use std::net::Ipv6Addr;
use std::num::NonZeroU16;
use std::str::FromStr;

/// A name or an IP address, and a port if there is one: "relay.example", "127.0.0.1:7703", "::1", "[::1]:7703".
#[derive(Clone, Debug, PartialEq, Eq)]
pub struct RelayAddress {
    host: String,
    port: Option<u16>,
}

impl RelayAddress {
    /// The name or IP address, without brackets, as [`crate::Peer::connect`] takes it with a port.
    pub fn host(&self) -> &str {
        &self.host
    }

    pub fn port(&self) -> Option<u16> {
        self.port
    }
}

/// What is wrong with the text.
#[derive(Clone, Debug, PartialEq, Eq)]
pub enum AddressError {
    NoHost,
    /// Not what a name or an IP address is made of.
    WrongHost(String),
    /// Brackets hold an IPv6 address, and nothing but a port follows them.
    WrongBrackets(String),
    WrongPort(String),
    Url(String),
}

impl fmt::Display for AddressError {
    fn fmt(&self, to: &mut fmt::Formatter) -> fmt::Result {
        match self {
            Self::NoHost => write!(to, "the relay's name or address is missing"),
            Self::WrongHost(host) => write!(to, "'{host}' is neither a name nor an IP address"),
            Self::WrongBrackets(text) => write!(to, "'{text}' isn't an IPv6 address in brackets, as in '[::1]:7703'"),
            Self::WrongPort(port) => write!(to, "a port is a number from 1 to 65535, not '{port}'"),
            Self::Url(text) => write!(to, "'{text}' is a URL, not a name or an IP address, as in 'relay.example:7703'"),
        }
    }
}

impl std::error::Error for AddressError {}

impl FromStr for RelayAddress {
    type Err = AddressError;

    fn from_str(text: &str) -> Result<Self, AddressError> {
        let (host, port) = match text.strip_prefix('[') {
            Some(rest) => split_brackets(rest).ok_or_else(|| AddressError::WrongBrackets(text.into()))?,
            None if is_ipv6(text) => (text, None),
            None => split_name(text)?,
        };
        Ok(Self { host: host.into(), port: port.map(parse_port).transpose()? })
    }
}

impl fmt::Display for RelayAddress {
    fn fmt(&self, to: &mut fmt::Formatter) -> fmt::Result {
        match self.port {
            Some(port) if is_ipv6(&self.host) => write!(to, "[{}]:{port}", self.host),
            Some(port) => write!(to, "{}:{port}", self.host),
            None => write!(to, "{}", self.host),
        }
    }
}

/// What stands in the brackets and the port's text, from what follows the first bracket.
fn split_brackets(text: &str) -> Option<(&str, Option<&str>)> {
    let (host, rest) = text.split_once(']').filter(|(host, _)| is_ipv6(host))?;
    match rest {
        "" => Some((host, None)),
        _ => Some((host, Some(rest.strip_prefix(':')?))),
    }
}

/// The name or IPv4 address and the port's text.
fn split_name(text: &str) -> Result<(&str, Option<&str>), AddressError> {
    if text.contains("://") {
        return Err(AddressError::Url(text.into()));
    }
    let (host, port) = text.split_once(':').map_or((text, None), |(host, port)| (host, Some(port)));
    if port.is_some_and(|port| port.contains(':')) {
        return Err(AddressError::WrongHost(text.into()));
    }
    if host.is_empty() {
        return Err(AddressError::NoHost);
    }
    if host.contains(|character: char| character.is_whitespace() || "/[]@".contains(character)) {
        return Err(AddressError::WrongHost(host.into()));
    }
    Ok((host, port))
}

/// With or without a zone, as in "fe80::1%eth0".
fn is_ipv6(text: &str) -> bool {
    text.split('%').next().is_some_and(|address| address.parse::<Ipv6Addr>().is_ok())
}

fn parse_port(text: &str) -> Result<u16, AddressError> {
    let digits = text.bytes().all(|byte| byte.is_ascii_digit());
    let port = text.parse::<NonZeroU16>().ok().filter(|_| digits);
    port.map(NonZeroU16::get).ok_or_else(|| AddressError::WrongPort(text.into()))
}
