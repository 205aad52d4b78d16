//! Worked cases: small tables with their orders, or with what is told of them
//! behind the name of the file, and files of records with their tables. The
//! unit tests and the trial of the programs both run them.

use reference::record::{Order, RECORD_BYTES, pack};

pub enum Outcome {
    Orders(Vec<Order>),
    Told(&'static str),
}

pub struct Import {
    pub name: &'static str,
    pub table: Vec<u8>,
    pub outcome: Outcome,
}

pub struct Export {
    pub name: &'static str,
    pub records: Vec<u8>,
    pub table: String,
}

use Outcome::{Orders, Told};

pub fn imports() -> Vec<Import> {
    let lists =
        [first_lines(), names(), columns(), cells(), numbers(), forms(), quotes(), blanks(), ends(), refused(), long()];
    lists.into_iter().flatten().collect()
}

fn case(name: &'static str, table: impl AsRef<[u8]>, outcome: Outcome) -> Import {
    Import { name, table: table.as_ref().to_vec(), outcome }
}

/// The deposit of RULES 2.7.
fn deposit() -> Order {
    Order {
        form: 3,
        minute: 540,
        security: 101,
        credited_member: 7,
        credited_type: 20,
        credited_shareholder: 5,
        quantity: 400,
        ..Order::default()
    }
}

/// An order of a form that uses nothing but form and minute.
fn alone(form: u64, minute: u64) -> Order {
    Order { form, minute, ..Order::default() }
}

fn cycle() -> Order {
    alone(16, 660)
}

fn answer(quantity: u64) -> Order {
    Order { quantity, ..alone(21, 661) }
}

fn open(kind: u64) -> Order {
    Order { quantity: kind, ..alone(1, 470) }
}

fn first_lines() -> Vec<Import> {
    vec![
        case("an empty file", "", Told("line 1: the file has nothing in it")),
        case("a byte-order mark alone", b"\xEF\xBB\xBF", Told("line 1: the file has nothing in it")),
        case("a line feed alone", "\n", Told("line 1: the line is empty")),
        case("blanks alone", " \t ", Told("line 1: the line is empty")),
        case("an empty first line", "\r\nform,minute\n16,660\n", Told("line 1: the line is empty")),
        case("the first line alone", "form,minute\n", Orders(vec![])),
        case("the first line alone, without a line feed", "form,minute", Orders(vec![])),
        case("a byte-order mark", b"\xEF\xBB\xBFform,minute\n16,660\n", Orders(vec![cycle()])),
        case(
            "two byte-order marks",
            b"\xEF\xBB\xBF\xEF\xBB\xBFform,minute\n",
            Told("line 1, column 1 (???form): no field has this name"),
        ),
        case("no form", "minute,security\n660,1\n", Told("line 1: no column is named form")),
        case("no minute", "form,security\n16,1\n", Told("line 1: no column is named minute")),
        case("neither form nor minute", "security\n1\n", Told("line 1: no column is named form")),
        case("an empty name", "form,,minute\n", Told("line 1, column 2: the cell is empty")),
        case("a comma behind the last name", "form,minute,\n", Told("line 1, column 3: the cell is empty")),
        case("a first line of commas", ",\n", Told("line 1, column 1: the cell is empty")),
    ]
}

const ALL: &str = "form,minute,security,currency,debited member,debited type,credited member,credited type,\
    debited shareholder,credited shareholder,quantity,amount,trade day,settlement day,reference,operation,\
    original,edition";

fn names() -> Vec<Import> {
    let no_field = "line 1, column 3 (note): no field has this name";
    let capital = "line 1, column 1 (Form): no field has this name";
    let twice = "line 1, column 3 (form): a column before this one has the same name";
    let long_name = format!("form,minute,{}\u{E9}{}\n", "n".repeat(78), "x".repeat(10));
    let shown = "line 1, column 3 (nnnnnnnnnnnnnnnnnnnnnnnnnnnnnnnnnnnnnnnnnnnnnnnnnnnnnnnnnnnnnnnnnnnnnnnnnnnnnn??): \
        no field has this name";
    vec![
        case("one column more, under a name of its own", "form,minute,note\n16,660,\n", Told(no_field)),
        case("a name in capitals", "Form,minute\n16,660\n", Told(capital)),
        case("half a name", "form,minute,debited\n", Told("line 1, column 3 (debited): no field has this name")),
        case(
            "two blanks in a name",
            "debited  member,form\n",
            Told("line 1, column 1 (debited  member): no field has this name"),
        ),
        case("the zero bits", "form,minute,(zero)\n", Told("line 1, column 3 ((zero)): no field has this name")),
        case(
            "a tab in a name",
            "form,minute,trade\tday\n",
            Told("line 1, column 3 (trade?day): no field has this name"),
        ),
        case("a name of more than 80 bytes", long_name, Told(shown)),
        case("a name that stands twice", "form,minute,form\n16,660,16\n", Told(twice)),
        case(
            "a field named a second time",
            "quantity,form,minute,quantity\n",
            Told("line 1, column 4 (quantity): a column before this one has the same name"),
        ),
        case("a comment line", "# orders\nform,minute\n", Told("line 1, column 1 (# orders): no field has this name")),
    ]
}

fn columns() -> Vec<Import> {
    let too_many = "line 1, column 19 (note): there are more columns than a record has fields";
    let again = "line 1, column 19 (form): there are more columns than a record has fields";
    let nothing = "line 1, column 19: there are more columns than a record has fields";
    vec![
        case("all eighteen names", format!("{ALL}\n3,540,101,,,,7,20,,5,400,,,,,,,\n"), Orders(vec![deposit()])),
        case("a nineteenth name", format!("{ALL},note\n"), Told(too_many)),
        case("a nineteenth name that stands twice", format!("{ALL},form\n"), Told(again)),
        case("a nineteenth name that is empty", format!("{ALL},\n"), Told(nothing)),
        case(
            "columns in another order",
            "quantity,credited shareholder,credited type,credited member,security,minute,form\n400,5,20,7,101,540,3\n",
            Orders(vec![deposit()]),
        ),
        case("the minute before the form", "minute,quantity,form\n470,2,1\n660,,16\n", Orders(vec![open(2), cycle()])),
    ]
}

fn cells() -> Vec<Import> {
    let fewer = "line 3, column 3 (quantity): the line has fewer cells than the first line";
    let fewest = "line 2, column 2 (minute): the line has fewer cells than the first line";
    let more = "line 2, column 3: the line has more cells than the first line";
    let wrong = "line 2, column 1 (minute): the cell is not a number in plain decimal digits";
    vec![
        case("one cell fewer", "form,minute,quantity\n1,470,1\n16,660\n", Told(fewer)),
        case("one cell alone", "form,minute,quantity\n16\n", Told(fewest)),
        case("one cell more", "form,minute\n16,660,0\n", Told(more)),
        case("two empty cells more", "form,minute\n16,660,,\n", Told(more)),
        case("a cell that is wrong before one that is missing", "minute,form,quantity\nx,1\n", Told(wrong)),
        case("a cell that is wrong before one too many", "minute,form\nx,16,1\n", Told(wrong)),
        case("a cell too many before refusal 3", "form,minute\n0,660,1\n", Told(more)),
        case("empty cells of unused fields", "form,minute,security,quantity\n16,660,,\n", Orders(vec![cycle()])),
        case("nothing under form", "form,minute\n,660\n", Told("line 2, column 1 (form): the cell is empty")),
        case("nothing under minute", "form,minute\n16, \n", Told("line 2, column 2 (minute): the cell is empty")),
        case("a line of commas", "form,minute\n16,660\n,\n", Told("line 3, column 1 (form): the cell is empty")),
        case(
            "the first of two wrong lines",
            "form,minute\n16,660\n16,1440\n16,x\n",
            Told("line 3, column 2 (minute): refused by 5, a field that the form uses is out of its range"),
        ),
    ]
}

fn numbers() -> Vec<Import> {
    let told = "line 2, column 2 (minute): the cell is not a number in plain decimal digits";
    let large = "line 2, column 3 (quantity): the number is too large";
    let out = "line 2, column 3 (quantity): refused by 5, a field that the form uses is out of its range";
    let most = Order { quantity: 1_099_511_627_775, ..alone(18, 600) };
    vec![
        case("a negative number", "form,minute\n16,-660\n", Told(told)),
        case("a plus sign", "form,minute\n16,+660\n", Told(told)),
        case("a point", "form,minute\n16,660.0\n", Told(told)),
        case(
            "a separator of thousands",
            "form,minute,quantity\n18,600,1'000\n",
            Told("line 2, column 3 (quantity): the cell is not a number in plain decimal digits"),
        ),
        case("a blank inside a number", "form,minute\n16,6 60\n", Told(told)),
        case("hexadecimal digits", "form,minute\n16,0x1F\n", Told(told)),
        case("a digit that is not ASCII", "form,minute\n16,\u{666}\u{666}\n", Told(told)),
        case("leading zeros", "form,minute\n0000000000000000000000016,000660\n", Orders(vec![cycle()])),
        case("the most of 40 bits", "form,minute,quantity\n18,600,1099511627775\n", Orders(vec![most])),
        case("one more", "form,minute,quantity\n18,600,1099511627776\n", Told(out)),
        case("the most of 64 bits", "form,minute,quantity\n18,600,18446744073709551615\n", Told(out)),
        case("one more again", "form,minute,quantity\n18,600,18446744073709551616\n", Told(large)),
        case("one more, and 1 if it wrapped", "form,minute,quantity\n1,470,18446744073709551617\n", Told(large)),
        case("forty digits", "form,minute,quantity\n1,470,1000000000000000000000000000000000000001\n", Told(large)),
        case(
            "too large under form",
            "form,minute\n18446744073709551632,660\n",
            Told("line 2, column 1 (form): the number is too large"),
        ),
        case(
            "forty digits and a letter",
            "minute,form\n1000000000000000000000000000000000000001x,16\n",
            Told("line 2, column 1 (minute): the number is too large"),
        ),
    ]
}

fn forms() -> Vec<Import> {
    let neither = "line 2, column 1 (form): the cell is neither a number nor the name of a form";
    let digits = "line 2, column 1 (form): the cell is not a number in plain decimal digits";
    let paid = Order { currency: 1, debited_member: 64, amount: 5, ..alone(11, 0) };
    vec![
        case("a form by its number", "form,minute\n16,660\n", Orders(vec![cycle()])),
        case("a form by its name", "form,minute\ncycle,660\n", Orders(vec![cycle()])),
        case("a name with a blank", "minute,quantity,form\n470,1, open day \n", Orders(vec![open(1)])),
        case(
            "a name with a hyphen",
            "form,minute,currency,debited member,amount\npay-out,0,1,64,5\n",
            Orders(vec![paid]),
        ),
        case(
            "names and numbers",
            "form,minute,quantity\nopen day,470,1\n16,660,\nclose,960,0\n",
            Orders(vec![open(1), cycle(), alone(17, 960)]),
        ),
        case(
            "a cycle and both its answers",
            "form,minute,quantity\ncycle,660,\nanswer cycle,661,1\n21,661,2\n",
            Orders(vec![cycle(), answer(1), answer(2)]),
        ),
        case("a form's name in capitals", "form,minute\nCYCLE,660\n", Told(neither)),
        case("a form's name with two blanks", "form,minute,quantity\nopen  day,470,1\n", Told(neither)),
        case("a negative form", "form,minute\n-16,660\n", Told(neither)),
        case("a form that starts with a digit", "form,minute\n16th,660\n", Told(digits)),
        case(
            "a form's name under another field",
            "form,minute\n16,cycle\n",
            Told("line 2, column 2 (minute): the cell is not a number in plain decimal digits"),
        ),
        case("a comment line among the orders", "form,minute\n# cycle\n16,660\n", Told(neither)),
        case(
            "a line that export makes of a record that does not read",
            "form,minute\nunreadable: refused by 3 (there is no such form)\n",
            Told(neither),
        ),
    ]
}

fn quotes() -> Vec<Import> {
    let quoted = "line 2, column 1 (form): cells are not quoted";
    vec![
        case("a quoted name", "form,\"minute\"\n16,660\n", Told("line 1, column 2 (\"minute\"): cells are not quoted")),
        case("a quoted number", "form,minute\n16,\"660\"\n", Told("line 2, column 2 (minute): cells are not quoted")),
        case("a quoted form", "form,minute\n\"cycle\",660\n", Told(quoted)),
        case("a quote behind a digit under form", "form,minute\n16\",660\n", Told(quoted)),
        case("a comma inside quotes", "form,minute\n\"open, day\",660\n", Told(quoted)),
        case(
            "a quote alone",
            "form,minute,security\n16,660,\"\n",
            Told("line 2, column 3 (security): cells are not quoted"),
        ),
        case(
            "an apostrophe is no quote",
            "form,minute\n16,'660'\n",
            Told("line 2, column 2 (minute): the cell is not a number in plain decimal digits"),
        ),
    ]
}

fn blanks() -> Vec<Import> {
    let inside = "line 2, column 2 (minute): the cell is not a number in plain decimal digits";
    vec![
        case("tabs and spaces", "\t form ,\tminute\t\n 16\t,  660 \t \n", Orders(vec![cycle()])),
        case("carriage returns", "form,minute\r\n16,660\r\ncycle,660\r\n", Orders(vec![cycle(), cycle()])),
        case("blanks before a carriage return", "form,minute \t\r\n16,660 \r\n", Orders(vec![cycle()])),
        case("carriage returns on some lines", "form,minute\r\n16,660\n", Orders(vec![cycle()])),
        case("a carriage return without a line feed", "form,minute\n16,660\r", Orders(vec![cycle()])),
        case("two carriage returns", "form,minute\n16,660\r\r\n", Orders(vec![cycle()])),
        case("a carriage return and a blank", "form,minute\n16,660\r \n", Orders(vec![cycle()])),
        case("a carriage return before a comma", "form,minute\n16\r,660\n", Orders(vec![cycle()])),
        case("a carriage return inside a cell", "form,minute\n16,6\r60\n", Told(inside)),
        case("a blank that is not ASCII", b"form,minute\n16,660\xC2\xA0\n", Told(inside)),
        case("a zero byte", b"form,minute\n16,660\0\n", Told(inside)),
        case(
            "a byte-order mark on the second line",
            b"form,minute\n\xEF\xBB\xBF16,660\n",
            Told("line 2, column 1 (form): the cell is neither a number nor the name of a form"),
        ),
    ]
}

fn ends() -> Vec<Import> {
    vec![
        case("no last line feed", "form,minute\n16,660", Orders(vec![cycle()])),
        case(
            "no last line feed, and one cell fewer",
            "form,minute\n16",
            Told("line 2, column 2 (minute): the line has fewer cells than the first line"),
        ),
        case("an empty last line", "form,minute\n16,660\n\n", Orders(vec![cycle()])),
        case("empty last lines with blanks", "form,minute\n16,660\n \n\t\r\n\n  ", Orders(vec![cycle()])),
        case("empty lines behind the first", "form,minute\n\n\r\n", Orders(vec![])),
        case("an empty line in the middle", "form,minute\n16,660\n\n16,660\n", Told("line 3: the line is empty")),
        case("empty lines in the middle", "form,minute\n \t\r\n\n\n16,660", Told("line 2: the line is empty")),
        case("an empty line before a wrong one", "form,minute\n\nx\n", Told("line 2: the line is empty")),
        case(
            "an empty line behind a wrong one",
            "form,minute\n16\n\n16,660\n",
            Told("line 2, column 2 (minute): the line has fewer cells than the first line"),
        ),
        case("a last line of a carriage return alone", "form,minute\n16,660\n\r", Orders(vec![cycle()])),
    ]
}

fn refused() -> Vec<Import> {
    let no_form = "line 2, column 2 (form): refused by 3, there is no such form";
    let unused = "line 2, column 3 (security): refused by 4, a field that the form does not use is not 0";
    let cut = "line 2, column 3 (quantity): refused by 4, a field that the form does not use is not 0";
    let last = "line 2, column 3 (edition): refused by 4, a field that the form does not use is not 0";
    let out = "line 2, column 2 (minute): refused by 5, a field that the form uses is out of its range";
    let missing = "line 2 (quantity): refused by 5, a field that the form uses is out of its range";
    let empty = "line 2, column 3 (quantity): refused by 5, a field that the form uses is out of its range";
    let first = "line 2 (security): refused by 5, a field that the form uses is out of its range";
    let later = "line 3, column 2 (minute): refused by 5, a field that the form uses is out of its range";
    vec![
        case("form 0", "minute,form\n660,0\n", Told(no_form)),
        case("form 22", "minute,form\n660,22\n", Told(no_form)),
        case("form 48, which is 16 in five bits", "minute,form\n660,48\n", Told(no_form)),
        case("3 before 4 and 5", "minute,form,security\n1440,22,1\n", Told(no_form)),
        case("a field that is not used", "form,minute,security\n16,660,1\n", Told(unused)),
        case("a field that is not used, 0 in its bits", "form,minute,security\n16,660,16384\n", Told(unused)),
        case(
            "the first of two in the order of the record",
            "form,quantity,security,minute\n16,1,1,660\n",
            Told(unused),
        ),
        case("4 before 5", "form,minute,quantity\n16,1440,1\n", Told(cut)),
        case("a field that no form uses", "form,minute,edition\n16,660,1\n", Told(last)),
        case("a minute too late", "form,minute\n16,1440\n", Told(out)),
        case("a used field without a column", "form,minute\n1,470\n", Told(missing)),
        case("a used field left empty", "form,minute,quantity\n1,470,\n", Told(empty)),
        case("a used field that is 0", "form,minute,quantity\n1,470,0\n", Told(empty)),
        case("a day kind of 3", "form,minute,quantity\n1,470,3\n", Told(empty)),
        case("an answer of 0", "form,minute,quantity\n21,590,0\n", Told(empty)),
        case("an answer of 3", "form,minute,quantity\nanswer cycle,590,3\n", Told(empty)),
        case("two used fields without a column", "form,minute\n2,500\n", Told(first)),
        case("a column that is missing before one that is wrong", "form,minute,quantity\n2,500,0\n", Told(first)),
        case("orders before a refused one", "form,minute\n16,660\n16,1440\n16,660\n", Told(later)),
    ]
}

/// Lines that just fit the buffer, or do not.
fn long() -> Vec<Import> {
    let blanks = " ".repeat(70_000 - 7);
    let most = " ".repeat(16_382 - 6);
    let long = Told("line 3: the line is too long");
    vec![
        case(
            "a line of 16,382 bytes",
            format!("form,minute\n16,660\n16,{most}660\n16,660\n"),
            Orders(vec![cycle(), cycle(), cycle()]),
        ),
        case("one that ends the file", format!("form,minute\n16,660\n16,{most}660"), Orders(vec![cycle(), cycle()])),
        case("a line of 16,383 bytes", format!("form,minute\n16,660\n16, {most}660\n16,660\n"), long),
        case(
            "one more that ends the file",
            format!("form,minute\n16,660\n16, {most}660"),
            Told("line 3: the line is too long"),
        ),
        case(
            "a line of 70,000 bytes",
            format!("form,minute\n16,660\n16,{blanks}660\n"),
            Told("line 3: the line is too long"),
        ),
        case(
            "a wrong line before it",
            format!("form,minute\n16,1440\n16,{blanks}660\n"),
            Told("line 2, column 2 (minute): refused by 5, a field that the form uses is out of its range"),
        ),
    ]
}

pub fn exports() -> Vec<Export> {
    let deposited = pack(&deposit().fields(), 0);
    let no_form = [0; RECORD_BYTES];
    let unused = pack(&alone(16, 660).fields(), 1);
    let out = pack(&alone(16, 1440).fields(), 0);
    let case = |name, records: &[&[u8]], lines: &str| Export {
        name,
        records: records.concat(),
        table: format!("{ALL}\n{lines}"),
    };
    let line = "deposit,540,101,0,0,0,7,20,0,5,400,0,0,0,0,0,0,0\n";
    let late = "cycle,1439,0,0,0,0,0,0,0,0,0,0,0,0,0,0,0,0\n";
    let answered = "answer cycle,661,0,0,0,0,0,0,0,0,2,0,0,0,0,0,0,0\n";
    let cut = "unreadable: refused by 2 (the record does not have 40 bytes)\n";
    let three = "unreadable: refused by 3 (there is no such form)\n";
    let four = "unreadable: refused by 4 (a field that the form does not use is not 0)\n";
    let five = "unreadable: refused by 5 (a field that the form uses is out of its range)\n";
    vec![
        case("no records", &[], ""),
        case("the deposit of RULES 2.7", &[&deposited], line),
        case("two orders", &[&pack(&alone(16, 1439).fields(), 0), &deposited], &format!("{late}{line}")),
        case("an answer", &[&pack(&answer(2).fields(), 0)], answered),
        case("a rest of 39 bytes", &[&deposited, &deposited[..39]], &format!("{line}{cut}")),
        case("one byte", &[&deposited[..1]], cut),
        case("a form that is none", &[&no_form, &deposited], &format!("{three}{line}")),
        case("a bit behind the fields", &[&deposited, &unused], &format!("{line}{four}")),
        case("a minute too late", &[&out], five),
    ]
}
