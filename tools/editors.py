#!/usr/bin/env python3
"""Writes the editor modes: one for Vim, and a TextMate grammar, which VS Code and others read.

Both are made from the table editors/forms.txt. Without --write the files are compared with what would be written. The
exit status is 1 if one differs."""
import argparse
import json
import os
import sys

TOP = os.path.dirname(os.path.dirname(os.path.abspath(__file__)))
TABLE = os.path.join(TOP, 'editors', 'forms.txt')
KINDS = ('declaration', 'mark', 'kind', 'method', 'statement', 'part', 'tag', 'constant', 'expression', 'query',
         'order')
NOTE = 'tools/editors.py writes this file from editors/forms.txt'

VIM = r'''" Vim syntax file. Language: applications of Jacqueline. %(note)s.
if exists("b:current_syntax")
  finish
endif
silent! syn include @jacHtml syntax/html.vim
unlet! b:current_syntax
syn case match
" HTML begins anew at each tag, and a text of an application doesn't
syn sync clear
syn sync fromstart

" what may be in a view, a model or a tag
syn cluster jacForms contains=jacDeclaration,jacMark,jacMethod,jacStatement,jacExpression,jacQuery,jacOrder
syn cluster jacForms add=jacConstant,jacNumber,jacPairs,jacComment,jacPart

syn match jacDeclaration "(\@1<=\%%(%(declaration)s\)\>-\@!"
syn match jacMark "\<\%%(%(mark)s\)\>-\@!\ze\_s*("
syn match jacMethod "\%%((view\s\+\)\@<=\%%(%(method)s\)\>-\@!"
syn match jacStatement "(\@1<=\%%(%(statement)s\)\>-\@!"
syn match jacExpression "(\@1<=\%%(%(expression)s\)\>-\@!"
syn match jacQuery "(\@1<=\%%(%(query)s\)\>-\@!"
syn match jacOrder "(\@1<=\%%(%(ordered)s\)\>-\@!"
syn match jacOrder "\%%()\|\<true\|\<false\)\@5<=\_s\+\%%(%(bare_order)s\))"hs=e-%(order_length)d,he=e-1
syn match jacConstant "(\@1<!\<\%%(%(constant)s\)\>-\@!"
syn match jacNumber "\%%(^\|[ \t(]\)\@1<=-\=\d\+\%%([ \t)]\|$\)\@="

" fields and parameters: the kinds are words of the language there alone
syn region jacPairs matchgroup=jacDeclaration start="(\@1<=\%%(fields\|params\)\>" matchgroup=NONE end=")"
  \ contains=jacPair
syn region jacPair contained start="(" end=")" contains=jacPair,jacKind
syn match jacKind contained "\%%([ \t]\)\@1<=\%%(%(bare_kind)s\)\ze\_s*)"
syn match jacKind contained "(\@1<=\%%(%(form_kind)s\)\>"

syn region jacText start=+"+ skip=+\\\\\|\\"+ end=+"+ contains=jacEscape,jacName
syn match jacEscape contained +\\[nrt\\"]+
syn match jacName contained "{[A-Za-z][A-Za-z0-9_-]*}"

" a template is a page of HTML with tags
syn region jacTemplate start=+\%%((template\_s\+\)\@<="+ skip=+\\\\\|\\"+ end=+"+ keepend
  \ contains=@jacHtml,jacEscape,jacTag
syn region jacTag contained matchgroup=jacDelimiter start="{{" end="}}"
  \ contains=@jacForms,jacTagText
syn region jacTag contained matchgroup=jacDelimiter start="{%%" end="%%}"
  \ contains=@jacForms,jacTagText,jacTagWord
syn cluster htmlPreproc add=jacTag
syn match jacTagWord contained "\<\%%(%(tag)s\)\>"
syn region jacTagText contained start=+\\"+ end=+\\"+

" parts of a folder that are put together
syn region jacComment start="\[#" end="#\]"
syn region jacPart matchgroup=jacDelimiter start="\[%%" end="%%\]"
syn region jacPart matchgroup=jacDelimiter start="\[\[" end="\]\]"

hi def link jacDeclaration Structure
hi def link jacMark StorageClass
hi def link jacMethod StorageClass
hi def link jacStatement Statement
hi def link jacExpression Function
hi def link jacQuery Repeat
hi def link jacOrder Keyword
hi def link jacConstant Constant
hi def link jacNumber Number
hi def link jacKind Type
hi def link jacText String
hi def link jacTagText String
hi def link jacTagWord Statement
hi def link jacEscape SpecialChar
hi def link jacName Identifier
hi def link jacDelimiter Delimiter
hi def link jacComment Comment
hi def link jacPart PreProc
let b:current_syntax = "jac"
'''
DETECT = r'''" %(note)s.
autocmd BufNewFile,BufRead *.app setfiletype jac
autocmd BufNewFile,BufRead app,main
  \ if join(getline(1, 9)) =~# '^\s*\%%(\[[#%%].\{-}[#%%]\]\s*\)*(app\>' | setfiletype jac | endif
'''
PLUGIN = r'''" %(note)s.
if exists("b:did_ftplugin")
  finish
endif
let b:did_ftplugin = 1
setlocal iskeyword+=- expandtab shiftwidth=1 autoindent commentstring=[#\ %%s\ #]
let b:undo_ftplugin = "setlocal iskeyword< expandtab< shiftwidth< autoindent< commentstring<"
'''


def table():
    """The words of each kind, in the table's order."""
    words = {kind: [] for kind in KINDS}
    with open(TABLE, encoding='utf-8') as file:
        for line in file:
            if line.strip() and not line.startswith('#'):
                word, kind, _ = line.split(None, 2)
                words[kind].append(word)
    return words


def forms():
    """The rows of the table: a word, its kind and its form."""
    with open(TABLE, encoding='utf-8') as file:
        return [tuple(line.rstrip('\n').split(None, 2)) for line in file if line.strip() and not line.startswith('#')]


def split():
    """The words for kinds and for orders. Those that begin a list are apart from those that are used alone."""
    found = {'form_kind': [], 'bare_kind': [], 'ordered': [], 'bare_order': []}
    for word, kind, form in forms():
        if kind == 'kind':
            found['form_kind' if form.startswith('(') else 'bare_kind'].append(word)
        if kind == 'order':
            found['ordered' if form.startswith('(') else 'bare_order'].append(word)
    return found


def vim():
    words = table()
    words['statement'] = words['statement'] + words['part']
    # fields and params begin regions of their own, so no other rule may match them
    words['declaration'] = [word for word in words['declaration'] if word not in ('fields', 'params')]
    texts = {kind: r'\|'.join(found) for kind, found in {**words, **split()}.items()}
    texts.update(note=NOTE, order_length=len(split()['bare_order'][0]))
    return {'vim/syntax/jac.vim': VIM % texts, 'vim/ftdetect/jac.vim': DETECT % texts,
            'vim/ftplugin/jac.vim': PLUGIN % texts}


def rule(name, pattern):
    return {'name': name + '.jac', 'match': pattern}


def form_rules(words):
    """The rules for words of the language. Their regular expressions mean the same in Oniguruma and in Python."""
    end = '(?![A-Za-z0-9_-])'
    before = '(?<![A-Za-z0-9_(-])'
    return [
        rule('storage.type.declaration', r'(?<=\()(?:%s)%s' % (words['declaration'], end)),
        rule('storage.modifier.mark', r'%s(?:%s)%s(?=\s*\()' % (before, words['mark'], end)),
        rule('storage.modifier.method', r'(?<=\(view )(?:%s)%s' % (words['method'], end)),
        rule('keyword.control.statement', r'(?<=\()(?:%s|%s)%s' % (words['statement'], words['part'], end)),
        rule('support.function.expression', r'(?<=\()(?:%s)%s' % (words['expression'], end)),
        rule('keyword.control.query', r'(?<=\()(?:%s)%s' % (words['query'], end)),
        rule('keyword.operator.order', r'(?<=\()(?:%s)%s' % (words['ordered'], end)),
        rule('keyword.operator.order',
             r'(?:(?<=\) )|(?<=true )|(?<=false )|^[ \t]+)(?:%s)(?=\))' % words['bare_order']),
        rule('storage.type.kind', r'(?<=\()(?:%s)%s|(?<=[a-z0-9_-] )(?:%s)(?=\)(?:\)| \())' % (
            words['form_kind'], end, words['bare_kind'])),
        rule('constant.language', r'%s(?:%s)%s' % (before, words['constant'], end)),
        rule('constant.numeric', r'(?<=[ \t(])-?[0-9]+(?=[ \t)]|$)'),
    ]


def textmate():
    """The TextMate grammar."""
    words = {kind: '|'.join(found) for kind, found in {**table(), **split()}.items()}
    tags = [{'begin': opening, 'end': closing, 'name': 'meta.tag.template.jac',
             'beginCaptures': {'0': {'name': 'punctuation.section.embedded.jac'}},
             'endCaptures': {'0': {'name': 'punctuation.section.embedded.jac'}},
             'patterns': [{'name': 'string.quoted.double.jac', 'begin': r'\\"', 'end': r'\\"'},
                          rule('keyword.control.tag', r'(?<=%% )(?:%s)(?= %%)' % words['tag']),
                          {'include': '#forms'}]} for opening, closing in ((r'\{\{', r'\}\}'), (r'\{%', r'%\}'))]
    escape = rule('constant.character.escape', r'\\[nrt\\"]')
    return {
        'comment': NOTE, 'name': 'Jacqueline', 'scopeName': 'source.jac', 'fileTypes': ['app'],
        'firstLineMatch': r'^\s*(\[#.*#\]\s*)?\(app\b',
        'patterns': [{'include': '#parts'}, {'include': '#texts'}, {'include': '#forms'}],
        'repository': {
            'forms': {'patterns': form_rules(words)},
            'texts': {'patterns': [
                {'name': 'string.quoted.template.jac', 'begin': r'(?<=\(template )"', 'end': '"',
                 'patterns': [*tags, escape, rule('entity.name.tag.html', r'</?[A-Za-z][A-Za-z0-9]*')]},
                {'name': 'string.quoted.double.jac', 'begin': '"', 'end': '"',
                 'patterns': [escape, rule('variable.parameter.path', r'\{[A-Za-z][A-Za-z0-9_-]*\}')]}]},
            'parts': {'patterns': [
                {'name': 'comment.block.jac', 'begin': r'\[#', 'end': r'#\]'},
                {'name': 'meta.preprocessor.jac', 'begin': r'\[%', 'end': r'%\]'},
                {'name': 'meta.preprocessor.jac', 'begin': r'\[\[', 'end': r'\]\]'}]}}}


def code():
    """The files that make the grammar an extension of VS Code."""
    package = {'name': 'jacqueline', 'displayName': 'Jacqueline', 'version': '1.0.0', 'engines': {'vscode': '^1.60.0'},
               'contributes': {
                   'languages': [{'id': 'jac', 'aliases': ['Jacqueline'], 'extensions': ['.app'],
                                  'firstLine': r'^\s*(\[#.*#\]\s*)?\(app\b', 'configuration': './brackets.json'}],
                   'grammars': [{'language': 'jac', 'scopeName': 'source.jac', 'path': './jac.tmLanguage.json'}]}}
    brackets = {'comments': {'blockComment': ['[#', '#]']}, 'brackets': [['(', ')'], ['{', '}'], ['[', ']']],
                'autoClosingPairs': [['(', ')'], ['"', '"'], ['{', '}'], ['[', ']']],
                'wordPattern': '[A-Za-z0-9_-]+'}
    return {'textmate/' + name: json.dumps(value, indent=1) + '\n' for name, value in (
        ('jac.tmLanguage.json', textmate()), ('package.json', package), ('brackets.json', brackets))}


def main():
    words = argparse.ArgumentParser(prog='editors', description=__doc__,
                                    formatter_class=argparse.RawDescriptionHelpFormatter)
    words.add_argument('--write', action='store_true', help='write the files')
    write, wrong = words.parse_args().write, 0
    for name, text in {**vim(), **code()}.items():
        path = os.path.join(TOP, 'editors', name)
        if write:
            os.makedirs(os.path.dirname(path), exist_ok=True)
            with open(path, 'w', encoding='utf-8') as file:
                file.write(text)
        elif not os.path.exists(path) or open(path, encoding='utf-8').read() != text:
            print('editors/%s differs from what editors/forms.txt gives: run with --write' % name)
            wrong = 1
    return wrong


if __name__ == '__main__':
    sys.exit(main())
