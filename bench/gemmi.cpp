// gemmi, where it is installed: its reader of a file in memory, and how many atoms came of it. It builds the hierarchy of
// models, chains and residues too, and keeps occupancy and B-factor as floats, so that it has no checksum to compare.
#include <cstddef>
#include <cstdint>
#include <gemmi/pdb.hpp>

extern "C" std::uint64_t bench_gemmi(const char *file, std::size_t length) {
    gemmi::Structure read = gemmi::read_pdb_from_memory(file, length, "bench");
    std::uint64_t atoms = 0;
    for (const gemmi::Model &model : read.models)
        for (const gemmi::Chain &chain : model.chains)
            for (const gemmi::Residue &residue : chain.residues)
                atoms += residue.atoms.size();
    return atoms;
}
