"""The program that a check runs. For the script `jac` that is the proved program, if it was built from the present
sources. Otherwise the check ends. JAC_PROVED tells the script to run no other program. Any other file is run as it is.
If that file is a trial, the check says that it isn't proved."""
import os
import subprocess
import sys

TOP = os.path.dirname(os.path.dirname(os.path.dirname(os.path.abspath(__file__))))
sys.path.append(os.path.join(TOP, 'tools'))
from arguments import script_parser                                         # noqa: E402

PROVED = os.path.join(TOP, 'crates', 'jac_main', 'out', 'jac_main')
TRIALS = os.path.join(TOP, 'out', '')


def is_script(path):
    with open(path, 'rb') as file:
        return file.read(2) == b'#!'


def words(**further):
    """Reads the script's arguments: the program, and further ones, each by its name with its options for argparse."""
    parser = script_parser()
    parser.add_argument('program', metavar='PROGRAM', help='./jac for the proved program, or the path of a program')
    for name, told in further.items():
        parser.add_argument(name, **told)
    return parser.parse_args()


def first_word():
    """Reads the arguments of a script whose only argument is the program. Returns the program."""
    return words().program


def program(word):
    """Returns the path of what this argument runs. If it is the script and there is no proved program of these sources,
    the check ends."""
    path = os.path.abspath(word)
    os.environ['JAC_PROVED'] = '1'
    if is_script(path):
        if not os.access(PROVED, os.X_OK):
            sys.exit('FAILED there is no proved program: ./prove makes it')
        if subprocess.run([sys.executable, os.path.join(TOP, 'tools', 'program.py'), PROVED]).returncode:
            sys.exit('FAILED the proved program was built of other sources: ./prove proves these')
    elif path.startswith(TRIALS):
        print('a trial is run, which is not proved', flush=True)
    return path


def binary(word):
    """Returns the program itself, even if the script is given. So the shell's allocations don't count as the
    program's."""
    path = program(word)
    return PROVED if is_script(path) else path
