//! Sockets: there is no network, and each call says so.

fn main() {
    println!("{:?}", std::net::TcpListener::bind("127.0.0.1:0").map(|_| ()));
    println!("{:?}", std::net::TcpStream::connect("example.com:80").map(|_| ()));
    println!("{:?}", std::net::UdpSocket::bind("0.0.0.0:0").map(|_| ()));
}
