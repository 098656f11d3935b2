{
    // What the crate's examples start from: a small disk, and its sectors with a text in sector 1.
    let geometry = thinnarom::Geometry { cylinders: 4, heads: 2, sectors_per_track: 8 };
    let identity = thinnarom::Identity::new("0001", "1.0", "MINIBUS DISK").unwrap();
    let master_password = &[0x5A; 32];
    let setup = thinnarom::Setup { geometry, identity: &identity, master_password };
    let mut sectors = vec![0; geometry.sector_bytes()];
    sectors[512..517].copy_from_slice(b"token");
    (thinnarom::Device::new(&setup).unwrap(), sectors)
}
