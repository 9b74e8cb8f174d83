use serde::Serialize;

#[derive(Serialize)]
#[serde(rename_all = "camelCase")]
pub struct Pet {
    pub full_name: String,
    pub owners: Owners,
}

impl Pet {
    pub fn new() -> Pet {
        todo!()
    }
}
