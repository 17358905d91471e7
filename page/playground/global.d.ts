// The editor's library (page/codemirror), which stands in a script of its own.
declare const CodeMirror: any;
// Of browsers, and newer than what the checker of types knows.
declare const CompressionStream: any;
declare const DecompressionStream: any;
