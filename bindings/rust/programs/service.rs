//! A service that reads its settings at its start: `.env` need not be there, and the names are read by `env::var`.

use std::{env, error::Error, net::SocketAddr, time::Duration};

#[derive(Debug)]
struct Settings {
    listen: SocketAddr,
    database: String,
    timeout: Duration,
    workers: usize,
}

fn required(name: &str) -> Result<String, Box<dyn Error>> {
    env::var(name).map_err(|error| format!("{name}: {error}").into())
}

fn settings() -> Result<Settings, Box<dyn Error>> {
    match dotenvy::dotenv() {
        Ok(path) => println!("loaded {}", path.file_name().unwrap().to_string_lossy()),
        Err(error) if error.not_found() => println!("no .env"),
        Err(error) => return Err(error.into()),
    }
    Ok(Settings {
        listen: format!("{}:{}", required("HOST")?, required("PORT")?).parse()?,
        database: required("DATABASE_URL")?,
        timeout: Duration::from_millis(required("TIMEOUT_MS")?.parse()?),
        workers: env::var("WORKERS").map_or(Ok(4), |text| text.parse())?,
    })
}

fn main() -> Result<(), Box<dyn Error>> {
    println!("{:?}", settings().map_err(|error| error.to_string()));
    std::fs::write(
        ".env",
        "# the service\nHOST=127.0.0.1\nPORT=8080 # not 80\nexport DB_USER='app'\nDB_PASSWORD=\"p@ss \\\"word\\\"\"\n\
         DATABASE_URL=\"postgres://${DB_USER}:${DB_PASSWORD}@${HOST}/app\"\nTIMEOUT_MS=250\n",
    )?;
    unsafe { env::set_var("PORT", "9090") };
    println!("{:#?}", settings()?);
    std::fs::write(".env", "HOST=::1\nWORKERS=two of them\n")?;
    println!("{:?}", settings().map_err(|error| error.to_string()));
    Ok(())
}
