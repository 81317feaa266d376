//! The program's commands that speak over sockets: state files, a lock, sessions one after another.
use crate::Answer;
use peer::replica::Replica;
use peer::session::{pull_quietly, serve_one};
use peer::snapshot::{read_snapshot, write_snapshot};
use peer::sums::KeptSums;
use std::error::Error;
use std::fs::{self, File};
use std::io::{BufReader, BufWriter, ErrorKind, Write};
use std::net::{TcpListener, TcpStream};
use std::path::Path;
use std::time::Duration;

const BUFFER_BYTES: usize = 65_536;
const PATIENCE: Duration = Duration::from_secs(30);

pub fn serve(config: &str, state: &str, address: &str, sessions: u64) -> Answer {
    let replica = load(config, state)?;
    let listener = TcpListener::bind(address)?;
    let mut kept = KeptSums::default();
    for _ in 0..sessions {
        let (stream, _) = listener.accept()?;
        let (source, mut sink) = ends(stream)?;
        if let Err(why) = serve_one(&replica, &mut kept, source, &mut sink) {
            eprintln!("{why}");
        }
    }
    println!("served {sessions}");
    Ok(())
}

pub fn pull_from(config: &str, state: &str, address: &str) -> Answer {
    let mut replica = load(config, state)?;
    let (source, mut sink) = ends(TcpStream::connect(address)?)?;
    let taken = pull_quietly(&mut replica, &mut KeptSums::default(), source, &mut sink)?;
    save(&replica, state)?;
    println!("new {taken}");
    Ok(())
}

fn ends(stream: TcpStream) -> Result<(BufReader<TcpStream>, BufWriter<TcpStream>), Box<dyn Error>> {
    stream.set_read_timeout(Some(PATIENCE))?;
    stream.set_write_timeout(Some(PATIENCE))?;
    let sink = BufWriter::with_capacity(BUFFER_BYTES, stream.try_clone()?);
    Ok((BufReader::with_capacity(BUFFER_BYTES, stream), sink))
}

fn load(config: &str, state: &str) -> Result<Replica, Box<dyn Error>> {
    let empty = Replica::new(fs::read_to_string(config)?.trim_end()).ok_or("no configuration")?;
    match File::open(state) {
        Ok(file) => Ok(read_snapshot(BufReader::with_capacity(BUFFER_BYTES, file), empty)?),
        Err(error) if error.kind() == ErrorKind::NotFound => Ok(empty),
        Err(error) => Err(error.into()),
    }
}

fn save(replica: &Replica, state: &str) -> Answer {
    let name = format!("{state}.new");
    let mut sink = BufWriter::with_capacity(BUFFER_BYTES, File::create(&name)?);
    write_snapshot(&mut sink, replica)?;
    sink.flush()?;
    sink.into_inner()?.sync_all()?;
    fs::rename(&name, state)?;
    let folder = Path::new(state).parent().filter(|folder| !folder.as_os_str().is_empty());
    Ok(File::open(folder.unwrap_or(Path::new(".")))?.sync_all()?)
}
