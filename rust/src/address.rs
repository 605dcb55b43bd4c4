//! Addresses of hosts.

#[cfg(feature = "std")]
use core::fmt;
#[cfg(feature = "std")]
use std::net::{IpAddr, Ipv4Addr, Ipv6Addr};

use crate::error::Error;
use crate::sys;
use crate::ADDRESS_LIMIT;

/// An address of a host (RFC 4120 sections 5.2.5 and 7.5.3): its type and its bytes, 40 at most, in
/// network order.
#[derive(Clone, Copy, Debug, PartialEq, Eq, Hash)]
pub struct Address(pub(crate) sys::Address);

impl Address {
    /// The type of IPv4's addresses, of 4 bytes.
    pub const IPV4: i32 = 2;
    /// The type of directional addresses (RFC 4120 section 7.1), of 4 bytes.
    pub const DIRECTIONAL: i32 = 3;
    /// The type of IPv6's addresses, of 16 bytes.
    pub const IPV6: i32 = 24;

    /// The directional address of the client's end, 0.
    pub const CLIENT: Address = Address::directional(0);
    /// The directional address of the server's end, 1.
    pub const SERVER: Address = Address::directional(1);

    /// The address of this type with these bytes. [`Error::Address`] of more than
    /// [`ADDRESS_LIMIT`](crate::ADDRESS_LIMIT).
    pub fn new(kind: i32, bytes: &[u8]) -> Result<Address, Error> {
        let mut made = sys::Address { kind, ..sys::NOWHERE };
        made.bytes.get_mut(..bytes.len()).ok_or(Error::Address)?.copy_from_slice(bytes);
        made.len = bytes.len() as u32;
        Ok(Address(made))
    }

    /// An address of IPv4.
    #[must_use]
    pub const fn ipv4(bytes: [u8; 4]) -> Address {
        let [a, b, c, d] = bytes;
        Address::of_four(Address::IPV4, [a, b, c, d])
    }

    /// An address of IPv6.
    #[must_use]
    pub fn ipv6(bytes: [u8; 16]) -> Address {
        let mut made = sys::Address { kind: Address::IPV6, len: 16, ..sys::NOWHERE };
        for (to, from) in made.bytes.iter_mut().zip(bytes) {
            *to = from;
        }
        Address(made)
    }

    /// A directional address: its number, 0 at the client's end and 1 at the server's.
    #[must_use]
    pub const fn directional(number: u32) -> Address {
        Address::of_four(Address::DIRECTIONAL, number.to_be_bytes())
    }

    const fn of_four(kind: i32, [a, b, c, d]: [u8; 4]) -> Address {
        #[rustfmt::skip]
        let bytes = [
            a, b, c, d, 0, 0, 0, 0, 0, 0, 0, 0, 0, 0, 0, 0, 0, 0, 0, 0,
            0, 0, 0, 0, 0, 0, 0, 0, 0, 0, 0, 0, 0, 0, 0, 0, 0, 0, 0, 0,
        ];
        Address(sys::Address { kind, len: 4, bytes })
    }

    /// The type, a number of RFC 4120 section 7.5.3.
    #[must_use]
    pub const fn kind(&self) -> i32 {
        self.0.kind
    }

    /// The bytes, in network order.
    #[must_use]
    pub fn bytes(&self) -> &[u8] {
        let len = (self.0.len as usize).min(ADDRESS_LIMIT);
        self.0.bytes.get(..len).unwrap_or(&[])
    }
}

#[cfg(feature = "std")]
impl From<Ipv4Addr> for Address {
    fn from(ip: Ipv4Addr) -> Address {
        Address::ipv4(ip.octets())
    }
}

/// One of IPv4 that is mapped into IPv6 is the one of IPv4.
#[cfg(feature = "std")]
impl From<Ipv6Addr> for Address {
    fn from(ip: Ipv6Addr) -> Address {
        ip.to_ipv4_mapped().map_or_else(|| Address::ipv6(ip.octets()), Address::from)
    }
}

/// One of IPv4 that is mapped into IPv6 is the one of IPv4.
#[cfg(feature = "std")]
impl From<IpAddr> for Address {
    fn from(ip: IpAddr) -> Address {
        match ip {
            IpAddr::V4(ip) => ip.into(),
            IpAddr::V6(ip) => ip.into(),
        }
    }
}

/// As `10.0.0.1` or `2001:db8::1`; one of another type as its number, a colon and its digits.
#[cfg(feature = "std")]
impl fmt::Display for Address {
    fn fmt(&self, to: &mut fmt::Formatter<'_>) -> fmt::Result {
        if let (Address::IPV4, Ok(octets)) = (self.kind(), <[u8; 4]>::try_from(self.bytes())) {
            return Ipv4Addr::from(octets).fmt(to);
        }
        if let (Address::IPV6, Ok(octets)) = (self.kind(), <[u8; 16]>::try_from(self.bytes())) {
            return Ipv6Addr::from(octets).fmt(to);
        }
        write!(to, "{}:", self.kind())?;
        self.bytes().iter().try_for_each(|byte| write!(to, "{byte:02x}"))
    }
}
