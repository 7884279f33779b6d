'use strict';

const { Document, Session } = require('./lib/model.js');
const { libraryVersion, native, TextModelError } = require('./lib/native.js');
const { Snapshot } = require('./lib/snapshot.js');
const { TextDocument } = require('./lib/text_document.js');

const LANGUAGES = Object.freeze(Object.keys(native.languages));

module.exports = { Document, LANGUAGES, Session, Snapshot, TextDocument, TextModelError, libraryVersion };
