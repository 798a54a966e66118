// Reads an XML file with pugixml and writes it to standard output, without layout: what bench/run measures beside the program.
// pugixml tests neither characters nor namespaces, so it does less than a reader of XML has to.
#include <cstdio>
#include <pugixml.hpp>

int main(int argc, char** argv) {
    if (argc != 2) {
        std::fprintf(stderr, "pugixml: one file, please\n");
        return 2;
    }
    pugi::xml_document document;
    const unsigned all = pugi::parse_full | pugi::parse_ws_pcdata;
    const pugi::xml_parse_result read = document.load_file(argv[1], all, pugi::encoding_utf8);
    if (!read) {
        std::fprintf(stderr, "pugixml: %s: %s\n", argv[1], read.description());
        return 1;
    }
    pugi::xml_writer_file out(stdout);
    document.save(out, "", pugi::format_raw | pugi::format_no_declaration, pugi::encoding_utf8);
    return std::fflush(stdout) == 0 ? 0 : 1;
}
