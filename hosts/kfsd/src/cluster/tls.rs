//! TLS, where the configuration has certificates: between members, and to etcd.

use super::secret;
use serde::{Deserialize, Serialize};
use std::fs;
use std::io::{self, ErrorKind};
use std::path::{Path, PathBuf};
use std::pin::Pin;
use std::sync::Arc;
use std::task::{Context, Poll};
use tokio::io::{AsyncRead, AsyncWrite, ReadBuf};
use tokio::net::TcpStream;
use tokio_rustls::rustls::server::AllowAnyAuthenticatedClient;
use tokio_rustls::rustls::{Certificate, ClientConfig, PrivateKey, RootCertStore, ServerConfig, ServerName};
use tokio_rustls::{TlsAcceptor, TlsConnector, TlsStream};

/// How many bytes a private key may have.
const KEY: std::ops::RangeInclusive<u64> = 1..=65_536;

/// The table `[cluster.peer_tls]`: files in the form PEM.
#[derive(Clone, Debug, Deserialize, Serialize, PartialEq, Eq)]
#[serde(deny_unknown_fields)]
pub struct PeerTls {
    /// The authority that has signed the certificates of all members.
    pub authority: PathBuf,
    /// This member's certificate, which has its name, and its private key.
    pub certificate: PathBuf,
    pub private_key: PathBuf,
}

/// The table `[cluster.etcd_tls]`.
#[derive(Clone, Debug, Deserialize, Serialize, PartialEq, Eq)]
#[serde(deny_unknown_fields)]
pub struct EtcdTls {
    /// The authority that has signed the certificates of etcd.
    pub authority: PathBuf,
    /// What is shown to etcd; both of them or none.
    pub certificate: Option<PathBuf>,
    pub private_key: Option<PathBuf>,
    /// The name that all certificates of etcd have. Where it isn't there, each has the host of its endpoint.
    pub name: Option<String>,
}

/// Begins connections.
#[derive(Clone, Default)]
pub struct Connector(Option<TlsConnector>);

/// Takes connections.
#[derive(Clone, Default)]
pub struct Acceptor(Option<TlsAcceptor>);

/// A connection, with TLS or without.
pub enum Stream {
    Plain(TcpStream),
    Tls(Box<TlsStream<TcpStream>>),
}

/// A file with what is wrong there.
fn at(path: &Path, fault: impl std::fmt::Display) -> io::Error {
    io::Error::new(ErrorKind::InvalidData, format!("{}: {fault}", path.display()))
}

fn certificates(path: &Path) -> io::Result<Vec<Certificate>> {
    let text = fs::read(path).map_err(|fault| at(path, fault))?;
    let found = rustls_pemfile::certs(&mut &text[..]).map_err(|fault| at(path, fault))?;
    if found.is_empty() {
        return Err(at(path, "it has no certificate"));
    }
    Ok(found.into_iter().map(Certificate).collect())
}

fn authority(path: &Path) -> io::Result<RootCertStore> {
    let mut roots = RootCertStore::empty();
    for certificate in certificates(path)? {
        roots.add(&certificate).map_err(|fault| at(path, fault))?;
    }
    Ok(roots)
}

fn private_key(path: &Path) -> io::Result<PrivateKey> {
    let text = secret::read(path, KEY).map_err(|fault| at(path, fault))?;
    let found = rustls_pemfile::read_all(&mut &text[..]).map_err(|fault| at(path, fault))?;
    let key = found.into_iter().find_map(|item| match item {
        rustls_pemfile::Item::RSAKey(key) | rustls_pemfile::Item::PKCS8Key(key) => Some(PrivateKey(key)),
        rustls_pemfile::Item::ECKey(key) => Some(PrivateKey(key)),
        _ => None,
    });
    key.ok_or_else(|| at(path, "it has no private key"))
}

/// The name that a certificate has to have.
pub fn name_of(name: &str) -> Option<ServerName> {
    ServerName::try_from(name).ok().filter(|name| matches!(name, ServerName::DnsName(_)))
}

impl PeerTls {
    pub fn connector(&self) -> io::Result<Connector> {
        connector(&self.authority, Some((&self.certificate, &self.private_key)))
    }

    /// Who connects has to have a certificate of the authority.
    pub fn acceptor(&self) -> io::Result<Acceptor> {
        let all = ServerConfig::builder().with_safe_defaults();
        let known = all.with_client_cert_verifier(AllowAnyAuthenticatedClient::new(authority(&self.authority)?));
        let config = known.with_single_cert(certificates(&self.certificate)?, private_key(&self.private_key)?);
        let config = config.map_err(|fault| at(&self.private_key, fault))?;
        Ok(Acceptor(Some(Arc::new(config).into())))
    }
}

impl EtcdTls {
    pub fn connector(&self) -> io::Result<Connector> {
        connector(&self.authority, self.certificate.as_deref().zip(self.private_key.as_deref()))
    }
}

fn connector(roots: &Path, own: Option<(&Path, &Path)>) -> io::Result<Connector> {
    let config = ClientConfig::builder().with_safe_defaults().with_root_certificates(authority(roots)?);
    let config = match own {
        None => config.with_no_client_auth(),
        Some((certificate, key)) => {
            let config = config.with_single_cert(certificates(certificate)?, private_key(key)?);
            config.map_err(|fault| at(key, fault))?
        }
    };
    Ok(Connector(Some(Arc::new(config).into())))
}

impl Connector {
    /// Goes on with TLS where that is wanted. The other end has to have a certificate of this name then.
    pub async fn connect(&self, stream: TcpStream, name: &str) -> io::Result<Stream> {
        let connector = match &self.0 {
            None => return Ok(Stream::Plain(stream)),
            Some(connector) => connector,
        };
        let name = name_of(name).ok_or_else(|| io::Error::new(ErrorKind::InvalidInput, "no certificate can have its name"))?;
        Ok(Stream::Tls(Box::new(connector.connect(name, stream).await?.into())))
    }
}

impl Acceptor {
    /// Goes on with TLS where that is wanted.
    pub async fn accept(&self, stream: TcpStream) -> io::Result<Stream> {
        match &self.0 {
            None => Ok(Stream::Plain(stream)),
            Some(acceptor) => Ok(Stream::Tls(Box::new(acceptor.accept(stream).await?.into()))),
        }
    }
}

impl std::fmt::Debug for Connector {
    fn fmt(&self, to: &mut std::fmt::Formatter<'_>) -> std::fmt::Result {
        to.write_str(if self.0.is_some() { "with TLS" } else { "without TLS" })
    }
}

impl std::fmt::Debug for Acceptor {
    fn fmt(&self, to: &mut std::fmt::Formatter<'_>) -> std::fmt::Result {
        to.write_str(if self.0.is_some() { "with TLS" } else { "without TLS" })
    }
}

impl AsyncRead for Stream {
    fn poll_read(mut self: Pin<&mut Self>, context: &mut Context<'_>, to: &mut ReadBuf<'_>) -> Poll<io::Result<()>> {
        match &mut *self {
            Stream::Plain(stream) => Pin::new(stream).poll_read(context, to),
            Stream::Tls(stream) => Pin::new(stream).poll_read(context, to),
        }
    }
}

impl AsyncWrite for Stream {
    fn poll_write(mut self: Pin<&mut Self>, context: &mut Context<'_>, bytes: &[u8]) -> Poll<io::Result<usize>> {
        match &mut *self {
            Stream::Plain(stream) => Pin::new(stream).poll_write(context, bytes),
            Stream::Tls(stream) => Pin::new(stream).poll_write(context, bytes),
        }
    }

    fn poll_flush(mut self: Pin<&mut Self>, context: &mut Context<'_>) -> Poll<io::Result<()>> {
        match &mut *self {
            Stream::Plain(stream) => Pin::new(stream).poll_flush(context),
            Stream::Tls(stream) => Pin::new(stream).poll_flush(context),
        }
    }

    fn poll_shutdown(mut self: Pin<&mut Self>, context: &mut Context<'_>) -> Poll<io::Result<()>> {
        match &mut *self {
            Stream::Plain(stream) => Pin::new(stream).poll_shutdown(context),
            Stream::Tls(stream) => Pin::new(stream).poll_shutdown(context),
        }
    }
}
