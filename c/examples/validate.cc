/* The program validate.c, written in C++17. It says for each argument whether it is a date, or a date and a time. If not, it prints the error,
 * the text, and a mark under the position of the error. The exit status is 1 if an argument is refused.
 *
 *     c++ -std=c++17 validate.cc $(pkg-config --cflags --libs ixdtf) -o validate
 *     ./validate 2024-03-02T08:48:00Z 2024-02-30
 */
#include <ixdtf.h>

#include <iomanip>
#include <iostream>
#include <string_view>

static void print_error(std::string_view text, uint32_t error, const ixdtf_record &record) {
    std::cout << text << ": " << ixdtf_error_message(error);
    if (error == IXDTF_ABRUPT_END) {
        std::cout << " This was being parsed: " << ixdtf_view(record.location) << ".";
    }
    // The position is a number of bytes. For a text in ASCII, it is also the number of columns before the mark.
    std::cout << "\n" << text << "\n" << std::setw(static_cast<int>(record.place) + 1) << "^" << "\n";
}

int main(int count, char **arguments) {
    int status = 0;
    for (int i = 1; i < count; i++) {
        const std::string_view text = arguments[i];
        ixdtf_record record = IXDTF_RECORD;
        const uint32_t error = ixdtf_parse_text(text, &record);
        if (error == IXDTF_OK) {
            std::cout << text << ": valid\n";
        } else {
            print_error(text, error, record);
            status = 1;
        }
    }
    return status;
}
