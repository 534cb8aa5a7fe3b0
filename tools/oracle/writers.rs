// Put by run.sh behind the text of the Rust's audio_data.rs: these writers are private there.

/// The allocation fields, scfsi and scalefactor indices by the three writers, one after the other.
pub fn write_side_info(
    data: &AudioData,
    writer: &mut BitWriter,
) -> Result<(), AudioDataWriteError> {
    write_allocation(data, writer)?;
    write_scfsi(data, writer);
    write_scalefactors(data, writer)
}
